/* A picture around a surface, between `left` and `right` of s and along all of t; beyond them its edges go on. */
surface printed(float Ka = 1; float Kd = 0.8; float Ks = 0.3; float roughness = 0.08;
                string picture = "label.ppm"; float left = 0; float right = 1;) {
  normal Nf = faceforward(normalize(N), I);
  color print = texture(picture, (s - left) / (right - left), t);
  Oi = Os;
  Ci = Os * (Cs * print * (Ka * ambient() + Kd * diffuse(Nf)) + Ks * specular(Nf, -normalize(I), roughness));
}
