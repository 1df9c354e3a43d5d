/* Rings round the z axis of the shader's space, shaken by noise, and fibres along it. Where a step of the grid goes over a whole ring
   the rings' mean is left. */
float rings_at(point q; float rings;) {
  float x = xcomp(q) + 0.3 * noise(0.8 * q);
  float y = ycomp(q) + 0.3 * noise(0.8 * q + point (7, 5, 3));
  return rings * sqrt(x * x + y * y);
}

float fibre(point q;) { /* fine noise, forty times as long as wide, and turned out of the axes */
  float x = 0.8 * xcomp(q) + 0.6 * ycomp(q);
  float y = 0.8 * ycomp(q) - 0.6 * xcomp(q);
  return noise(point (40 * x, 40 * y, zcomp(q)));
}

float stride(float x; float du; float dv;) { /* how far x goes in a step of the grid both ways */
  return abs(Du(x) * du) + abs(Dv(x) * dv);
}

surface wood(float Ka = 1; float Kd = 0.8; float rings = 6;
             color early = color (0.72, 0.47, 0.22); color late = color (0.36, 0.19, 0.07);) {
  normal Nf = faceforward(normalize(N), I);
  point q = transform("shader", P);
  float ring = rings_at(q, rings);
  float part = mod(ring, 1);
  float dark = smoothstep(0.1, 0.85, part) - smoothstep(0.85, 1, part);
  color grain = mix(early, late, mix(dark, 0.45, smoothstep(0.3, 0.8, stride(ring, du, dv))));
  Oi = Os;
  Ci = Os * grain * (0.8 + 0.2 * fibre(q)) * (Ka * ambient() + Kd * diffuse(Nf));
}
