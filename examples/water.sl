/* Water: the deeper colour where one looks down, that of the sky where the look is level, and the glitter of lights. */
surface water(float Ks = 0.6; float roughness = 0.02; color sky = color (0.6, 0.7, 0.85); color specularcolor = 1;) {
  normal Nf = faceforward(normalize(N), I);
  vector V = -normalize(I);
  float level = pow(1 - max(0, V . Nf), 4);
  Oi = Os;
  Ci = Os * (mix(Cs, sky, level) + specularcolor * Ks * specular(Nf, V, roughness));
}
