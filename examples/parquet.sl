/* Boards along t, side by side along s, each in a tone of its own, with thin joints between them. Tones, joints and grain are means over a
   step of the grid, so that far away all boards have one tone. */
float stride(float x; float du; float dv;) { /* how far x goes in a step of the grid both ways */
  return clamp(abs(Du(x) * du) + abs(Dv(x) * dv), 1 / 256, 1);
}

float gap(float x; float part; float width;) { /* how much of what is within width / 2 of x lies in the first part of a whole step */
  float from = x - width / 2;
  float to = x + width / 2;
  return ((floor(to) - floor(from)) * part + min(mod(to, 1), part) - min(mod(from, 1), part)) / width;
}

float after(float x; float width;) { /* how much of what is within width / 2 of x lies past the next whole number */
  float from = x - width / 2;
  return clamp((from + width - floor(from) - 1) / width, 0, 1);
}

float tone(float row; float along; float width;) { /* of the boards of a row at a place, the end of one and the begin of the next */
  float place = along + 0.37 * row;
  float board = floor(place - width / 2);
  return mix(noise(3.7 * row + 0.5, 5.3 * board + 0.5), noise(3.7 * row + 0.5, 5.3 * board + 5.8), after(place, width));
}

surface parquet(float Ka = 1; float Kd = 0.8; float Ks = 0.3; float roughness = 0.12; float boards = 20; float lengths = 6;) {
  normal Nf = faceforward(normalize(N), I);
  float across = s * boards;
  float along = t * lengths;
  float wide = stride(across, du, dv);
  float long = stride(along, du, dv);
  float row = floor(across - wide / 2);
  float tones = mix(tone(row, along, long), tone(row + 1, along, long), after(across, wide));
  float joint = max(gap(across, 0.035, wide), gap(along + 0.37 * floor(across), 0.006, long));
  float fibre = (noise(9 * across, 9 * along) - 0.5) * (1 - smoothstep(0.3, 0.8, 9 * wide));
  Oi = Os;
  Ci = Os * (Cs * (0.75 + 0.5 * tones + 0.2 * fibre) * (1 - 0.5 * joint) * (Ka * ambient() + Kd * diffuse(Nf))
    + Ks * specular(Nf, -normalize(I), roughness));
}
