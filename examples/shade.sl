/* The soft shadow at the foot of what stands on a table: nothing at the rim of a disk, and dark from the part `full` of the way inwards. */
surface shade(float dark = 0.7; float full = 0.9;) {
  Oi = dark * smoothstep(0, full, v);
  Ci = 0;
}
