surface metal(float Ka = 1; float Ks = 1; float roughness = 0.1;) {
  normal Nf = faceforward(normalize(N), I);
  Oi = Os;
  Ci = Os * Cs * (Ka * ambient() + Ks * specular(Nf, -normalize(I), roughness));
}
