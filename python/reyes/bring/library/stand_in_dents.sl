/* Stands in for dents that aren't here: a sum of noises in the shader's space moves the surface inwards. */
displacement stand_in_dents(float Km = 0.1; float frequency = 2;)
{
    point Q = transform("shader", P) * frequency;
    float deep = 0;
    float size = 1;
    uniform float k;
    for (k = 0; k < 5; k += 1) {
        deep += abs(0.5 - noise(Q * size)) / size;
        size *= 2;
    }
    P -= Km * deep * deep * normalize(N);
    N = calculatenormal(P);
}
