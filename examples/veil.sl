/* Threads that let through what lies behind them; their edges are spread over a step of the grid. */
float gap(float x; float part; float width;) { /* how much of what is within width / 2 of x lies in the first part of a whole step */
  float from = x - width / 2;
  float to = max(x + width / 2, from + 1 / 256);
  return ((floor(to) - floor(from)) * part + min(mod(to, 1), part) - min(mod(from, 1), part)) / (to - from);
}

float stride(float x; float du; float dv;) { /* how far x goes in a step of the grid both ways */
  return abs(Du(x) * du) + abs(Dv(x) * dv);
}

surface veil(float threads = 10; float width = 0.3;) {
  float across = gap(s * threads, width, stride(s * threads, du, dv));
  float along = gap(t * threads, width, stride(t * threads, du, dv));
  Oi = Os * (1 - (1 - across) * (1 - along));
  Ci = Oi * Cs;
}
