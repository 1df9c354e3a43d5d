/* Dents of four sizes, by noise; the noise of each size is turned against that of the others, so that its lattice doesn't show. */
point turned(point q;) {
  float x = xcomp(q);
  float y = ycomp(q);
  float z = zcomp(q);
  return point (0.36 * x + 0.48 * y - 0.8 * z, 0.6 * y - 0.8 * x, 0.48 * x + 0.64 * y + 0.6 * z);
}

displacement dents(float amplitude = 0.2; float frequency = 3;) {
  point q = turned(frequency * transform("shader", P));
  float deep = 0;
  uniform float scale = frequency;
  uniform float k = 0;
  for (k = 0; k < 4; k += 1) {
    deep += abs(noise(q) - 0.5) / scale;
    q = 2 * turned(q);
    scale *= 2;
  }
  P -= amplitude * deep * normalize(N);
  N = calculatenormal(P);
}
