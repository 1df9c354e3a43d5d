
  string ball_picture = ""; float ball_strength = 0.6;
  color ball_right = color (1, 0, 0); color ball_up = color (0, 1, 0); color ball_ahead = color (0, 0, 1);
