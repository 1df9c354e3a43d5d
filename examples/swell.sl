/* Swells towards the eye along u and v together. */
displacement swell() { P -= u * v * N; }
