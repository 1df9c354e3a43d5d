
  /* what the surface mirrors, at the place of the point on the screen, takes the place of so much of its own colour; the more, the flatter it
     is looked at */
  float mirror_depth = mirror_perspective == 1 ? max(zcomp(P), 0.01) : 1;
  float mirror_flat = 1 - abs(normalize(N) . normalize(I));
  float mirror_part = mirror_strength * (0.35 + 0.65 * mirror_flat * mirror_flat * mirror_flat);
  Ci = (1 - mirror_part) * Ci + Oi * mirror_part
    * texture(mirror_picture, (xcomp(P) / mirror_depth - mirror_left) / mirror_width, (mirror_top - ycomp(P) / mirror_depth) / mirror_height);
