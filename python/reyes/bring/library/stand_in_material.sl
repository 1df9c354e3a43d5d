/* Stands in for a material that isn't here: plastic whose own colour may be given, as exporters of materials write it. */
surface stand_in_material(float Ka = 1; float Kd = 0.8; float Ks = 0.3; float roughness = 0.1; color diffusecolor = 1; color specularcolor = 1; color opacity = 1;)
{
    normal Nf = faceforward(normalize(N), I);
    vector V = -normalize(I);
    Oi = Os * opacity;
    Ci = Oi * (Cs * diffusecolor * (Ka * ambient() + Kd * diffuse(Nf)) + specularcolor * Ks * specular(Nf, V, roughness));
}
