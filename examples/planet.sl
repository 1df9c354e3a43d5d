/* A planet: seas, lands and clouds by noise of six sizes, each turned against the others, in the shader's space. */
point turned(point q;) {
  float x = xcomp(q);
  float y = ycomp(q);
  float z = zcomp(q);
  return point (0.36 * x + 0.48 * y - 0.8 * z, 0.6 * y - 0.8 * x, 0.48 * x + 0.64 * y + 0.6 * z);
}

float mixed(point p;) { /* the sum of the sizes, from 0 to 1 */
  point q = turned(p);
  float sum = 0;
  uniform float size = 0.5;
  uniform float k = 0;
  for (k = 0; k < 6; k += 1) {
    sum += size * noise(q);
    q = 2 * turned(q) + 7;
    size *= 0.5;
  }
  return sum;
}

surface planet(float size = 2; color sea = color (0.02, 0.08, 0.2); color land = color (0.24, 0.22, 0.12);) {
  normal Nf = faceforward(normalize(N), I);
  point q = size * transform("shader", P);
  color ground = mix(sea, land * (0.6 + 0.8 * noise(6 * q)), smoothstep(0.5, 0.54, mixed(q)));
  color seen = mix(ground, color 1, smoothstep(0.47, 0.7, mixed(2 * q + 20)));
  float level = pow(1 - abs(normalize(I) . Nf), 3);
  Oi = Os;
  Ci = Os * (seen + color (0.2, 0.4, 0.8) * level) * (ambient() + diffuse(Nf));
}
