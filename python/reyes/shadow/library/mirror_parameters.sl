
  string mirror_picture = ""; float mirror_strength = 0.4, mirror_perspective = 1;
  float mirror_left = -1, mirror_width = 2, mirror_top = 1, mirror_height = 2;
