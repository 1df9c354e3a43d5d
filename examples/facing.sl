/* Brighter where the surface faces the eye. */
surface facing(float least = 0.15;) {
  float cosine = abs(normalize(I) . normalize(N));
  Oi = Os;
  Ci = Os * Cs * mix(least, 1, cosine);
}
