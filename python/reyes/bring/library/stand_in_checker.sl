/* Stands in for checks that aren't here: squares of the surface's colour and of a second one. */
surface stand_in_checker(float Ka = 1; float Kd = 0.8; float frequency = 10; color blackcolor = 0.1;)
{
    normal Nf = faceforward(normalize(N), I);
    float a = mod(floor(s * frequency) + floor(t * frequency), 2);
    color paint = mix(Cs, Cs * blackcolor, a);
    Oi = Os;
    Ci = Os * paint * (Ka * ambient() + Kd * diffuse(Nf));
}
