"""Functions of the standard that the profile hasn't, in its words. Each is written beside a shader that needs it."""
from __future__ import annotations

from functools import cache

from reyes.bring.shaders.lexer import tokens
from reyes.bring.shaders.parser import Parser
from reyes.bring.shaders.tree import Function

PREFIX = "reyes_"
TEXT = """
float reyes_asin(float a) {
    float x = clamp(abs(a), 0, 1);
    float r = PI / 2 - sqrt(1 - x) * (1.5707963 + x * (-0.2145988 + x * (0.088979 + x * (-0.0501743 + x * (0.0308919
        + x * (-0.0170881 + x * 0.0066701))))));
    return a < 0 ? -r : r;
}
float reyes_acos(float a) {
    float x = clamp(abs(a), 0, 1);
    float r = sqrt(1 - x) * (1.5707963 + x * (-0.2145988 + x * (0.088979 + x * (-0.0501743 + x * (0.0308919
        + x * (-0.0170881 + x * 0.0066701))))));
    return a < 0 ? PI - r : r;
}
float reyes_atan(float y, x) {
    float a = abs(x), b = abs(y);
    float q = min(a, b) / max(a, b);
    float z = q * q;
    float r = q * (0.9999993 + z * (-0.3332986 + z * (0.1994654 + z * (-0.1390853 + z * (0.0964201
        + z * (-0.0559099 + z * (0.0218612 + z * -0.0040541)))))));
    r = b > a ? PI / 2 - r : r;
    r = x < 0 ? PI - r : r;
    return y < 0 ? -r : r;
}
color reyes_noise_color(point p) {
    return color(noise(p), noise(p + vector(37.5, 11.25, 5.75)), noise(p + vector(-19.5, 61.25, 43.75)));
}
vector reyes_noise_vector(point p) {
    return vector(noise(p), noise(p + vector(37.5, 11.25, 5.75)), noise(p + vector(-19.5, 61.25, 43.75)));
}
color reyes_cell_color(point q) {
    point p = floor(q);
    return color(noise(p), noise(p + vector(37, 11, 5)), noise(p + vector(-19, 61, 43)));
}
vector reyes_cell_vector(point q) {
    point p = floor(q);
    return vector(noise(p), noise(p + vector(37, 11, 5)), noise(p + vector(-19, 61, 43)));
}
color reyes_from_hsv(color c) {
    float h = mod(comp(c, 0), 1) * 6, s = comp(c, 1), v = comp(c, 2);
    color k = color(clamp(abs(h - 3) - 1, 0, 1), clamp(2 - abs(h - 2), 0, 1), clamp(2 - abs(h - 4), 0, 1));
    return v * mix(color 1, k, color s);
}
color reyes_from_hsl(color c) {
    float h = mod(comp(c, 0), 1) * 6, s = comp(c, 1), l = comp(c, 2);
    float q = s * (1 - abs(2 * l - 1));
    color k = color(clamp(abs(h - 3) - 1, 0, 1), clamp(2 - abs(h - 2), 0, 1), clamp(2 - abs(h - 4), 0, 1));
    return color l + q * (k - color 0.5);
}
float reyes_hue(color c) {
    float r = comp(c, 0), g = comp(c, 1), b = comp(c, 2);
    float m = max(r, g, b), d = max(r, g, b) - min(r, g, b);
    float h = m == r ? (g - b) / d : (m == g ? 2 + (b - r) / d : 4 + (r - g) / d);
    return d == 0 ? 0 : mod(h / 6, 1);
}
color reyes_to_hsv(color c) {
    float m = max(comp(c, 0), comp(c, 1), comp(c, 2)), n = min(comp(c, 0), comp(c, 1), comp(c, 2));
    return color(reyes_hue(c), m == 0 ? 0 : (m - n) / m, m);
}
color reyes_to_hsl(color c) {
    float m = max(comp(c, 0), comp(c, 1), comp(c, 2)), n = min(comp(c, 0), comp(c, 1), comp(c, 2));
    float l = (m + n) / 2;
    float q = 1 - abs(2 * l - 1);
    return color(reyes_hue(c), q == 0 ? 0 : (m - n) / q, l);
}
color reyes_from_yiq(color c) {
    float y = comp(c, 0), i = comp(c, 1), q = comp(c, 2);
    return color(y + 0.9563 * i + 0.621 * q, y - 0.2721 * i - 0.6474 * q, y - 1.107 * i + 1.7046 * q);
}
color reyes_to_yiq(color c) {
    float r = comp(c, 0), g = comp(c, 1), b = comp(c, 2);
    return color(0.299 * r + 0.587 * g + 0.114 * b, 0.5959 * r - 0.2746 * g - 0.3213 * b, 0.2115 * r - 0.5227 * g + 0.3112 * b);
}
color reyes_from_xyz(color c) {
    float x = comp(c, 0), y = comp(c, 1), z = comp(c, 2);
    return color(3.2406 * x - 1.5372 * y - 0.4986 * z, -0.9689 * x + 1.8758 * y + 0.0415 * z, 0.0557 * x - 0.204 * y + 1.057 * z);
}
color reyes_to_xyz(color c) {
    float r = comp(c, 0), g = comp(c, 1), b = comp(c, 2);
    return color(0.4124 * r + 0.3576 * g + 0.1805 * b, 0.2126 * r + 0.7152 * g + 0.0722 * b, 0.0193 * r + 0.1192 * g + 0.9505 * b);
}
vector reyes_refract(vector i; normal n; float eta) {
    float d = i . n;
    float k = 1 - eta * eta * (1 - d * d);
    return k < 0 ? vector 0 : eta * i - (eta * d + sqrt(k)) * vector n;
}
float reyes_fresnel(vector i; normal n; float eta) {
    float c = min(abs(i . n), 1);
    float k = 1 - eta * eta * (1 - c * c);
    float d = sqrt(k);
    float a = (eta * c - d) / (eta * c + d), b = (c - eta * d) / (c + eta * d);
    return k <= 0 ? 1 : 0.5 * (a * a + b * b);
}
point reyes_rotate(point q; float a; point p1, p2) {
    vector x = normalize(p2 - p1);
    vector d = q - p1;
    vector c = cos(a) * d + sin(a) * (x ^ d) + (1 - cos(a)) * (x . d) * x;
    return p1 + c;
}
float reyes_ptlined(point a, b, p) {
    vector d = b - a;
    float t = clamp(((p - a) . d) / (d . d), 0, 1);
    return distance(p, a + t * d);
}
float reyes_specularbrdf(vector l; normal n; vector v; float roughness) {
    return pow(max(0, normalize(n) . normalize(normalize(l) + normalize(v))), 1 / roughness);
}
"""


@cache
def functions() -> dict[str, Function]:
    """All functions of the library by their names."""
    reader, found = Parser(tokens(TEXT, "the library")), {}
    while reader.token().kind != "end":
        function = reader.function()
        found[function.name] = function
    return found


def function(name: str) -> Function:
    """One function of the library."""
    return functions()[name]
