/* Stands in for a marble that isn't here: veins where a sum of noise passes its middle. */
surface stand_in_marble(float Ka = 1; float Kd = 0.8; float Ks = 0.3; float roughness = 0.1; float frequency = 2; color veincolor = color (0.25, 0.25, 0.35);)
{
    normal Nf = faceforward(normalize(N), I);
    vector V = -normalize(I);
    point Q = transform("shader", P) * frequency;
    float sum = 0;
    float weight = 1;
    float i;
    for (i = 0; i < 4; i += 1) {
        sum += weight * abs(2 * noise(Q) - 1);
        weight *= 0.5;
        Q *= 2.03;
    }
    color stone = mix(veincolor, Cs, smoothstep(0.05, 0.75, sum));
    Oi = Os;
    Ci = Os * (stone * (Ka * ambient() + Kd * diffuse(Nf)) + Ks * specular(Nf, V, roughness));
}
