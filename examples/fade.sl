/* Red grows along u, green along v. */
surface fade() { Ci = color (u, v, 0.25); Oi = 1; }
