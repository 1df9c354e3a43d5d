/* A shader with a mistake: the variable is called Cs, and not Colour. */
surface broken(float gain = 1) {
  Oi = Os;
  Ci = Os * Colour * gain;
}
