/* Stands in for a lamp that isn't here: a point of light that falls off with a power of the distance, 0 for none. */
light stand_in_lamp(float intensity = 1; color lightcolor = 1; point from = point "shader" (0, 0, 0); float decay = 0;)
{
    illuminate(from)
        Cl = intensity * lightcolor * pow(length(L), -decay);
}
