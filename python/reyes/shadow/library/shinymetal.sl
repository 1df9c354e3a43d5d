surface shinymetal(float Ka = 1; float Ks = 1; float roughness = 0.1; float Kr = 1; string texturename = "";) {
  normal Nf = faceforward(normalize(N), I);
  Oi = Os;
  Ci = Os * Cs * (Ka * ambient() + Ks * specular(Nf, -normalize(I), roughness));
}
