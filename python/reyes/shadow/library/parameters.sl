
  string shadow_map_K = ""; float shadow_parallel_K = 0; color shadow_from_K = 0;
  color shadow_right_K = color (1, 0, 0); color shadow_up_K = color (0, 1, 0); color shadow_ahead_K = color (0, 0, 1);
  float shadow_left_K = -1, shadow_width_K = 2, shadow_top_K = 1, shadow_height_K = 2, shadow_near_K = 0, shadow_far_K = 1,
    shadow_texel_K = 0.002, shadow_bias_K = 0.02, shadow_soft_K = 0, shadow_thin_K = 0;
