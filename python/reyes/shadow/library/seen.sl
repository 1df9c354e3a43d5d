  /* light _K: how much of it comes here */
  color shadow_seen_K = 1;
  uniform point shadow_source_K = point "world" (comp(shadow_from_K, 0), comp(shadow_from_K, 1), comp(shadow_from_K, 2));
  uniform vector shadow_axis_K = vector "world" (comp(shadow_ahead_K, 0), comp(shadow_ahead_K, 1), comp(shadow_ahead_K, 2));
  uniform vector shadow_mark_K = shadow_parallel_K == 1 ? -normalize(shadow_axis_K) : vector shadow_source_K;
  if (shadow_map_K != "") {
    /* the point in the light's view: x and y on its window, z along its axis */
    uniform vector sh_right = vector "world" (comp(shadow_right_K, 0), comp(shadow_right_K, 1), comp(shadow_right_K, 2));
    uniform vector sh_up = vector "world" (comp(shadow_up_K, 0), comp(shadow_up_K, 1), comp(shadow_up_K, 2));
    vector sh_d = P - shadow_source_K;
    float sh_z = sh_d . shadow_axis_K;
    float sh_w = shadow_parallel_K == 1 ? 1 : max(sh_z, shadow_near_K);
    float sh_x = (sh_d . sh_right) / sh_w;
    float sh_y = (sh_d . sh_up) / sh_w;
    float sh_s = (sh_x - shadow_left_K) / shadow_width_K;
    float sh_t = (shadow_top_K - sh_y) / shadow_height_K;
    uniform float sh_range = shadow_far_K - shadow_near_K;
    /* the map has 1 at the near plane and 0 at the far one: sh_v is what it has where the point is lit, and sh_gx and sh_gy how that goes
       on along x and y in the plane of the surface, so that a plane needs no bias for its slope */
    float sh_v = clamp((shadow_far_K - sh_z) / sh_range, 0, 1);
    normal sh_n = normalize(shadow_displaced == 1 ? N : Ng);
    float sh_nx = sh_n . sh_right;
    float sh_ny = sh_n . sh_up;
    float sh_nz = sh_n . shadow_axis_K;
    float sh_e = shadow_parallel_K == 1 ? sh_nz : sh_nx * sh_x + sh_ny * sh_y + sh_nz;
    sh_e = (sh_e < 0 ? min(sh_e, -0.15) : max(sh_e, 0.15)) * (shadow_parallel_K == 1 ? sh_range : sh_range / sh_w);
    float sh_gx = sh_nx / sh_e;
    float sh_gy = sh_ny / sh_e;
    sh_v += shadow_bias_K / sh_range;
    float sh_least = 1.2 * shadow_texel_K;
    float sh_r = sh_least;
    uniform float sh_k = 0;
    if (shadow_soft_K > 0) {
      /* the mean depth of what lies in front, and by it the width of the penumbra */
      float sh_reach = max(shadow_parallel_K == 1 ? shadow_soft_K * (sh_z - shadow_near_K)
        : shadow_soft_K * (sh_z - shadow_near_K) / (sh_w * max(shadow_near_K, 0.01)), sh_least);
      float sh_rs = sh_reach / shadow_width_K;
      float sh_rt = sh_reach / shadow_height_K;
      float sh_rx = sh_reach * sh_gx;
      float sh_ry = sh_reach * sh_gy;
      float sh_sum = 0;
      float sh_count = 0;
      for (sh_k = 0; sh_k < shadow_search; sh_k += 1) {
        /* the places of a sunflower's seeds, the same at each point: a level of the map is read by how far s and t go between neighbours */
        uniform float sh_q = sqrt((sh_k + 0.5) / shadow_search);
        uniform float sh_a = sh_q * cos(2.39996 * sh_k);
        uniform float sh_b = sh_q * sin(2.39996 * sh_k);
        float sh_m = float texture(shadow_map_K, sh_s + sh_a * sh_rs, sh_t - sh_b * sh_rt);
        float sh_in = step(sh_v + (sh_a * sh_rx + sh_b * sh_ry), sh_m);
        sh_sum += sh_in * sh_m;
        sh_count += sh_in;
      }
      float sh_before = shadow_far_K - sh_sum / sh_count * sh_range;
      if (sh_count > 0)
        sh_r = clamp(shadow_parallel_K == 1 ? shadow_soft_K * (sh_z - sh_before)
          : shadow_soft_K * (sh_z - sh_before) / (sh_w * max(sh_before, 0.01)), sh_least, sh_reach);
    }
    /* lit where the point isn't below what the map has, dark where it is so by the bias */
    uniform float sh_sharp = min(sh_range / max(shadow_bias_K, 0.001), 8000);
    float sh_rs = sh_r / shadow_width_K;
    float sh_rt = sh_r / shadow_height_K;
    float sh_rx = sh_r * sh_gx * sh_sharp;
    float sh_ry = sh_r * sh_gy * sh_sharp;
    float sh_pv = sh_v * sh_sharp + 1;
    float sh_lit = 0;
    for (sh_k = 0; sh_k < shadow_taps; sh_k += 1) {
      uniform float sh_q = sqrt((sh_k + 0.5) / shadow_taps);
      uniform float sh_a = sh_q * cos(2.39996 * sh_k);
      uniform float sh_b = sh_q * sin(2.39996 * sh_k);
      float sh_p = sh_pv + (sh_a * sh_rx + sh_b * sh_ry);
      /* red: the nearest opaque thing; green: the nearest one that lets light through; blue: how much all of these take */
      if (shadow_thin_K == 1) {
        color sh_m = texture(shadow_map_K, sh_s + sh_a * sh_rs, sh_t - sh_b * sh_rt);
        sh_lit += clamp(sh_p - sh_sharp * comp(sh_m, 0), 0, 1)
          * (1 - comp(sh_m, 2) * (1 - clamp(sh_p - sh_sharp * comp(sh_m, 1), 0, 1)));
      } else
        sh_lit += clamp(sh_p - sh_sharp * float texture(shadow_map_K, sh_s + sh_a * sh_rs, sh_t - sh_b * sh_rt), 0, 1);
    }
    if (sh_s > 0 && sh_s < 1 && sh_t > 0 && sh_t < 1) shadow_seen_K = sh_lit / shadow_taps;
  }
