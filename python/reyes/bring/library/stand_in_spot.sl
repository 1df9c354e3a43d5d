/* Stands in for a spotlight that isn't here: a cone of light that falls off with a power of the distance, 0 for none. */
light stand_in_spot(float intensity = 1; color lightcolor = 1; point from = point "shader" (0, 0, 0); point to = point "shader" (0, 0, 1);
    float coneangle = 0.5; float conedeltaangle = 0.05; float beamdistribution = 0; float decay = 0;)
{
    vector A = normalize(to - from);
    illuminate(from, A, coneangle) {
        float c = L . A / length(L);
        Cl = intensity * lightcolor * pow(max(c, 0), beamdistribution) * pow(length(L), -decay)
            * smoothstep(cos(coneangle), cos(coneangle - conedeltaangle), c);
    }
}
