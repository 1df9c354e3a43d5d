/* Stands in for bricks and tiles that aren't here: rectangles of the surface's colour with joints between them, row after row shifted. */
surface stand_in_tiles(float Ka = 1; float Kd = 0.8; float across = 8; float up = 8; float shift = 0.5; color jointcolor = color (0.35, 0.33, 0.3);)
{
    normal Nf = faceforward(normalize(N), I);
    float row = floor(t * up);
    float x = mod(s * across + shift * mod(row, 2), 1);
    float y = mod(t * up, 1);
    float joint = 1 - smoothstep(0.03, 0.06, x) * smoothstep(0.03, 0.06, 1 - x) * smoothstep(0.03, 0.06, y) * smoothstep(0.03, 0.06, 1 - y);
    color paint = mix(Cs * (0.8 + 0.2 * noise(floor(s * across) * 3.7, row * 5.3)), jointcolor, joint);
    Oi = Os;
    Ci = Os * paint * (Ka * ambient() + Kd * diffuse(Nf));
}
