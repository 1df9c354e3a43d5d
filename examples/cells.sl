/* Each micropolygon in a colour of its own, a hash of its column and line. */
surface cells() {
    float column = floor(u / du + 0.5), line = floor(v / dv + 0.5);
    float hash = mod(sin(column * 12.9898 + line * 78.233) * 437.585, 1);
    Ci = color (hash, mod(hash * 7, 1), mod(hash * 31, 1)) * 0.8 + 0.2;
    Oi = 1;
}
