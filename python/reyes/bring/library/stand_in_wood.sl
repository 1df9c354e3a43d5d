/* Stands in for a wood that isn't here: rings about the z axis of the shader's space, grain along it. */
surface stand_in_wood(float Ka = 1; float Kd = 0.75; float Ks = 0.2; float roughness = 0.2; float ringscale = 8; color lightwood = color (0.69, 0.44, 0.25); color darkwood = color (0.35, 0.22, 0.08);)
{
    normal Nf = faceforward(normalize(N), I);
    vector V = -normalize(I);
    point Q = transform("shader", P) * ringscale;
    Q += vector (0.4 * noise(Q * 0.7), 0.4 * noise(Q * 0.7 + vector (7, 3, 1)), 0);
    float r = sqrt(xcomp(Q) * xcomp(Q) + ycomp(Q) * ycomp(Q));
    r += 0.4 * noise(point (xcomp(Q) * 2, ycomp(Q) * 2, zcomp(Q) * 0.3));
    float ring = mod(r, 1);
    ring = smoothstep(0, 0.8, ring) - smoothstep(0.83, 1, ring);
    color wood = mix(lightwood, darkwood, ring);
    Oi = Os;
    Ci = Os * (wood * (Ka * ambient() + Kd * diffuse(Nf)) + Ks * specular(Nf, V, roughness));
}
