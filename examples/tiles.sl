/* Squares of two colours, without light; edges are spread over a step of the grid, as in checker.sl. */
float odd(float x; float width;) { /* how much of what is within width / 2 of x lies in columns of odd numbers */
  float from = x - width / 2;
  float to = max(x + width / 2, from + 1 / 256);
  return (floor(to / 2) - floor(from / 2) + max(0, mod(to, 2) - 1) - max(0, mod(from, 2) - 1)) / (to - from);
}

float stride(float x; float du; float dv;) { /* how far x goes in a step of the grid both ways */
  return abs(Du(x) * du) + abs(Dv(x) * dv);
}

surface tiles(float count = 6; color other = color (0.95, 0.93, 0.85);) {
  float column = odd(s * count, stride(s * count, du, dv));
  float row = odd(t * count, stride(t * count, du, dv));
  Oi = Os;
  Ci = Os * mix(Cs, other, column + row - 2 * column * row);
}
