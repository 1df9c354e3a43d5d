/* Painted pottery: rows of teeth between two lines, by s around and t along, over a glaze that shines. No edge is sharper than a step
   of the grid. */
float line_at(float at; float middle; float width; float soft;) {
  return smoothstep(-soft, soft, width - abs(at - middle));
}

float stride(float x; float du; float dv;) { /* how far x goes in a step of the grid both ways */
  return abs(Du(x) * du) + abs(Dv(x) * dv);
}

surface pottery(float Ka = 1; float Kd = 0.75; float Ks = 0.5; float roughness = 0.06;
                float teeth = 18; float rows = 4; color paint = color (0.12, 0.2, 0.5);) {
  normal Nf = faceforward(normalize(N), I);
  float across = abs(mod(s * teeth, 1) - 0.5) * 2;
  float along = mod(t * rows, 1);
  float soft = clamp(stride(t * rows, du, dv) + 0.3 * stride(s * teeth, du, dv), 0.01, 0.2);
  float tooth = smoothstep(-soft, soft, 0.35 + 0.3 * across - along) * smoothstep(-soft, soft, along - 0.2);
  float lines = max(line_at(along, 0.1, 0.04, soft), line_at(along, 0.85, 0.06, soft));
  color body = mix(Cs, paint, max(tooth, lines)) * (0.9 + 0.1 * noise(20 * s, 20 * t));
  Oi = Os;
  Ci = Os * (body * (Ka * ambient() + Kd * diffuse(Nf)) + Ks * specular(Nf, -normalize(I), roughness));
}
