
  float cast_depth = clamp(1 - depth(P), 0, 1);
  float cast_opacity = (comp(Oi, 0) + comp(Oi, 1) + comp(Oi, 2)) / 3;
  float cast_whole = step(0.98, cast_opacity);
  float cast_thin = cast_opacity > 0.01 ? 1 - cast_whole : 0;
  Oi = color (cast_whole, cast_thin, cast_thin * cast_opacity);
  Ci = color (cast_whole * cast_depth, cast_thin * cast_depth, cast_thin * cast_opacity);
