/* For a light's map. Red is the depth of the nearest opaque thing, from 1 at the near plane to 0 at the far one and where nothing is; green
   that of the nearest thing that lets light through; blue how much all of these take away. Opacity is a colour, so the three are hidden
   each by itself. */
surface cast() {
  Oi = Os;
}
