/* Stripes along t and a highlight; their edges are soft, and no sharper than a step of the grid. */
float pulse(float from; float to; float soft; float x) {
  return smoothstep(from - soft, from + soft, x) - smoothstep(to - soft, to + soft, x);
}

surface stripes(float Ka = 0.3; float Kd = 0.7; float Ks = 0.4; float roughness = 0.15; float count = 5; float soft = 0.05;
                color other = color (0.95, 0.95, 0.9);) {
  normal Nf = faceforward(normalize(N), I);
  vector V = -normalize(I);
  float x = s * count;
  float edge = clamp(abs(Du(x) * du) + abs(Dv(x) * dv), soft, 0.25);
  color paint = mix(Cs, other, pulse(0.25, 0.75, edge, mod(x, 1)));
  Oi = Os;
  Ci = Os * (paint * (Ka * ambient() + Kd * diffuse(Nf)) + Ks * specular(Nf, V, roughness));
}
