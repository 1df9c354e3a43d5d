/* Rings about an axis: `count` of them along v, in the colour of the object and in another. */
surface band(float count = 5; color other = color (0.9, 0.85, 0.7);) {
    float place = mod(v * count, 1);
    float edge = max(abs(dv) * count, 0.01);
    float ring = smoothstep(0.5 - edge, 0.5, place) - smoothstep(1 - edge, 1, place);
    normal n = faceforward(normalize(N), I);
    Ci = mix(Cs, other, ring) * (ambient() + diffuse(n)) + 0.4 * specular(n, -normalize(I), 0.05);
    Oi = Os;
    Ci *= Oi;
}
