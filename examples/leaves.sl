/* A colour for each quarter of a patch. */
surface leaves() {
    color left = v < 0.5 ? color (0.85, 0.4, 0.3) : color (0.9, 0.75, 0.3);
    color right = v < 0.5 ? color (0.35, 0.6, 0.4) : color (0.3, 0.5, 0.8);
    Ci = u < 0.5 ? left : right;
    Oi = 1;
}
