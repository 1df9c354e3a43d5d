/* Veins where noise of five sizes comes near its mean; each size is turned against the others. In the shader's space. */
point turned(point q;) {
  float x = xcomp(q);
  float y = ycomp(q);
  float z = zcomp(q);
  return point (0.36 * x + 0.48 * y - 0.8 * z, 0.6 * y - 0.8 * x, 0.48 * x + 0.64 * y + 0.6 * z);
}

surface marble(float size = 2; float width = 0.2; color vein = color (0.25, 0.2, 0.3);) {
  point q = turned(size * transform("shader", P));
  float sum = 0;
  uniform float scale = 1;
  uniform float k = 0;
  for (k = 0; k < 5; k += 1) {
    sum += (noise(q) - 0.5) / scale;
    q = 2 * turned(q);
    scale *= 2;
  }
  Oi = Os;
  Ci = Os * mix(vein, Cs, smoothstep(0, width, abs(sum)));
}
