/* Thin glass: clear where one looks straight through it, denser and brighter towards its outline, with sharp highlights. */
surface glass(float clear = 0.3; float dense = 1; float Ks = 1; float roughness = 0.006; color shine = color (0.9, 0.95, 1);) {
  normal Nf = faceforward(normalize(N), I);
  vector V = -normalize(I);
  float level = pow(1 - max(0, V . Nf), 2.5);
  color stain = mix(color 1, color 1 - Cs, 0.8);
  Oi = Os * clamp(stain * mix(clear, dense, level), color 0, color 1);
  Ci = Oi * (Cs * (0.35 + 0.3 * diffuse(Nf)) + shine * 0.5 * level) + shine * Ks * specular(Nf, V, roughness);
}
