/* A board of so many steps each way, in the colours that u and v make. */
surface grids(float steps = 16;) {
    float odd = mod(floor(u * steps) + floor(v * steps), 2);
    Ci = color (u, v, 0.25) * (0.6 + 0.4 * odd);
    Oi = 1;
}
