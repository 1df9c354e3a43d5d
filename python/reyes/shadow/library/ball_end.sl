
  /* the direction that is seen in the mirror, on a sphere map: its middle shows what lies towards the eye, its rim what lies ahead of it */
  vector ball_seen = normalize(reflect(normalize(I), faceforward(normalize(N), I)));
  float ball_x = ball_seen . normalize(vector "world" (comp(ball_right, 0), comp(ball_right, 1), comp(ball_right, 2)));
  float ball_y = ball_seen . normalize(vector "world" (comp(ball_up, 0), comp(ball_up, 1), comp(ball_up, 2)));
  float ball_z = -(ball_seen . normalize(vector "world" (comp(ball_ahead, 0), comp(ball_ahead, 1), comp(ball_ahead, 2))));
  float ball_wide = 2 * max(sqrt(ball_x * ball_x + ball_y * ball_y + (ball_z + 1) * (ball_z + 1)), 0.02);
  Ci = (1 - ball_strength) * Ci + Oi * ball_strength * texture(ball_picture, 0.5 + ball_x / ball_wide, 0.5 - ball_y / ball_wide);
