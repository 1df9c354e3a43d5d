/* Sand, grass, rock and snow by height over y = 0 in the shader's space and by slope, with noise in the heights. */
surface land(float Ka = 1; float Kd = 1; float snowline = 6; float treeline = 3;
             color grass = color (0.22, 0.3, 0.1); color rock = color (0.36, 0.32, 0.3); color snow = color (0.95, 0.96, 1);) {
  normal Nf = faceforward(normalize(N), I);
  normal up = ntransform("shader", normalize(N));
  point q = transform("shader", P);
  float rough = noise(1.7 * q) + 0.5 * noise(5 * q);
  float high = ycomp(q) + 1.5 * (rough - 0.75);
  float flat = abs(ycomp(normalize(up)));
  float grown = smoothstep(0.5, 0.8, flat) * (1 - smoothstep(treeline, treeline + 1.5, high));
  color ground = mix(rock * (0.7 + 0.4 * rough), grass * (0.6 + 0.6 * rough), grown);
  ground = mix(color (0.5, 0.45, 0.35), ground, smoothstep(0.05, 0.3, ycomp(q)));
  ground = mix(ground, snow, smoothstep(snowline - 0.5, snowline + 0.5, high) * smoothstep(0.3, 0.6, flat));
  Oi = Os;
  Ci = Os * ground * (Ka * ambient() + Kd * diffuse(Nf));
}
