/* Mist that begins at some distance from the eye. */
volume mist(float start = 2; float thickness = 4; color tone = color (0.8, 0.85, 0.9);) {
  float way = length(I);
  float amount = 0;
  if (way > start) amount = 1 - exp((start - way) / thickness);
  Ci = mix(Ci, tone, amount);
  Oi = mix(Oi, color 1, amount);
}
