/* A round spot of light, soft at its edge. */
light spot(float intensity = 1; color lightcolor = 1; point from = point "shader" (0, 0, 0); point to = point "shader" (0, 0, 1);
           float angle = radians(20);) {
  uniform vector axis = normalize(to - from);
  illuminate(from, axis, angle) {
    float c = normalize(L) . axis;
    Cl = intensity * lightcolor * smoothstep(cos(angle), cos(0.6 * angle), c) / (L . L);
  }
}
