/* Rows of bricks with mortar between them, as wide upright as level; every second row is moved by half a brick, and each brick has a
   shade of its own. The edges of the joints are spread over a step of the grid. */
float gap(float x; float part; float width;) { /* how much of what is within width / 2 of x lies in the first part of a whole step */
  float from = x - width / 2;
  float to = max(x + width / 2, from + 1 / 256);
  return ((floor(to) - floor(from)) * part + min(mod(to, 1), part) - min(mod(from, 1), part)) / (to - from);
}

float stride(float x; float du; float dv;) { /* how far x goes in a step of the grid both ways */
  return abs(Du(x) * du) + abs(Dv(x) * dv);
}

surface brick(float Ka = 1; float Kd = 1; float columns = 4; float rows = 8; float joint = 0.06;
              color mortar = color (0.62, 0.6, 0.56);) {
  normal Nf = faceforward(normalize(N), I);
  float row = floor(t * rows);
  float x = s * columns + 0.5 * mod(row, 2);
  float between = gap(x, joint, stride(s * columns, du, dv));
  float joint_of_row = joint * length(dPdu) * rows / (columns * length(dPdv));
  float under = gap(t * rows, joint_of_row, stride(t * rows, du, dv));
  color clay = Cs * mix(0.7, 1, noise(floor(x), row));
  color wall = mix(clay, mortar, 1 - (1 - between) * (1 - under));
  Oi = Os;
  Ci = Os * wall * (Ka * ambient() + Kd * diffuse(Nf));
}
