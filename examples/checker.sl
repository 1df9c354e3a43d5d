/* A board of squares, alternately of the surface's colour and of another. Each point takes the mean over `blur` steps of the grid, so
   that edges are smooth, and so that far away both colours become one; with a blur of 0 each point has the colour of its square. */
float odd(float x; float width;) { /* how much of what is within width / 2 of x lies in columns of odd numbers */
  float from = x - width / 2;
  float to = max(x + width / 2, from + 1 / 256);
  return (floor(to / 2) - floor(from / 2) + max(0, mod(to, 2) - 1) - max(0, mod(from, 2) - 1)) / (to - from);
}

float stride(float x; float du; float dv;) { /* how far x goes in a step of the grid both ways */
  return abs(Du(x) * du) + abs(Dv(x) * dv);
}

surface checker(float Ka = 1; float Kd = 1; float squares = 8; float blur = 1; color other = color (0.1, 0.1, 0.1);) {
  normal Nf = faceforward(normalize(N), I);
  float column = odd(s * squares, stride(s * squares, blur * du, blur * dv));
  float row = odd(t * squares, stride(t * squares, blur * du, blur * dv));
  color tile = mix(Cs, other, column + row - 2 * column * row);
  Oi = Os;
  Ci = Os * tile * (Ka * ambient() + Kd * diffuse(Nf));
}
