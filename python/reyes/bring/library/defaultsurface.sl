/* The standard's default surface: what faces the camera is light, what turns away is dark. */
surface defaultsurface(float Kd = 0.8; float Ka = 0.2;)
{
    float d = normalize(N) . normalize(I);
    Ci = Cs * (Ka + Kd * d * d);
    Oi = Os;
    Ci *= Oi;
}
