/* A pattern many times over a surface. Each second one is mirrored, so that no neighbours lie at the two ends of a picture: between
   them the look-up would take the mean of the whole for a line. Where a step of the grid goes over a whole pattern the mean is left,
   which is what a look-up reads whose neighbours are a whole picture away. */
float folded(float x;) {
  return abs(mod(x, 2) - 1);
}

float stride(float x; float du; float dv;) { /* how far x goes in a step of the grid both ways */
  return abs(Du(x) * du) + abs(Dv(x) * dv);
}

surface woven(float Ka = 1; float Kd = 0.85; string pattern = "cloth.ppm"; float columns = 8; float rows = 8;) {
  normal Nf = faceforward(normalize(N), I);
  float x = s * columns;
  float y = t * rows;
  color near = texture(pattern, folded(x), folded(y));
  color far = texture(pattern, u / du, v / dv);
  color thread = mix(near, far, smoothstep(0.4, 1, max(stride(x, du, dv), stride(y, du, dv))));
  Oi = Os;
  Ci = Os * Cs * thread * (Ka * ambient() + Kd * diffuse(Nf));
}
