/* Stands in for mirrors and chrome that aren't here: the colours of a sky and of a floor in place of what stands around. */
surface stand_in_mirror(float Ka = 0.5; float Kd = 0; float Ks = 1; float Kr = 0.8; float roughness = 0.05; color specularcolor = 1;)
{
    normal Nf = faceforward(normalize(N), I);
    vector V = -normalize(I);
    float up = ycomp(vtransform("world", reflect(-V, Nf)));
    color seen = mix(color (0.25, 0.2, 0.15), color (0.7, 0.8, 0.9), smoothstep(-0.3, 0.3, up));
    Oi = Os;
    Ci = Os * (Cs * (Ka * ambient() + Kd * diffuse(Nf) + Kr * seen) + specularcolor * Ks * specular(Nf, V, roughness));
}
