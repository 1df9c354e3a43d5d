/* Stands in for glass and water that aren't here: clear where it faces the camera, bright at its rims as by reflection; it bends nothing. */
surface stand_in_glass(float Ka = 0.2; float Kd = 0; float Ks = 0.5; float Kr = 1; float Kt = 1; float roughness = 0.05; color specularcolor = 1;
    color diffusecolor = 1; color opacity = 1;)
{
    normal Nf = faceforward(normalize(N), I);
    vector V = -normalize(I);
    float c = 1 - clamp(V . Nf, 0, 1);
    float rim = 0.04 + 0.96 * c * c * c * c * c;
    Oi = Os * opacity * (1 - 0.9 * clamp(Kt * (1 - rim), 0, 1));
    Ci = Os * Cs * diffusecolor * (Ka * ambient() + Kd * diffuse(Nf)) + Kr * rim * color (0.7, 0.8, 0.9) + specularcolor * Ks * specular(Nf, V, roughness);
}
