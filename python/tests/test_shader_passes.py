"""Each pass over shaders: the picture of what it makes beside that of the same shader written by hand in the words of the profile."""
from __future__ import annotations

from pathlib import Path

import numpy as np
import pytest

from reyes import command, picture, program as renderer
from shading import accepted, brought, difference, drawn

MATTE = "Ci = Os * Ct * (0.3 * ambient() + diffuse(faceforward(normalize(N), I))); Oi = Os;"
# A pass: the text as authors write it, the same by hand, how many levels they may differ by, and what is told.
PASSES: dict[str, tuple[str, str, int, str]] = {
    "a function without a value": (
        "void tint(float x; output color c) { c = mix(c, color(0, 0, 1), x); }"
        " surface it() { color Ct = Cs; tint(u, Ct); " + MATTE + " }",
        "surface it() { color Ct = mix(Cs, color(0, 0, 1), u); " + MATTE + " }", 0, "= it.sl:1: function `tint` put in place"),
    "an output that is an element": (
        "void fill(output float a, b) { a = 0.25; b = u; } "
        "surface it() { float k[2]; fill(k[0], k[1]); color Ct = Cs * (k[0] + k[1]); " + MATTE + " }",
        "surface it() { color Ct = Cs * (0.25 + u); " + MATTE + " }", 0, "put in place"),
    "an output at a place that varies": (
        "void fill(output float a) { a = 0.25; } "
        "surface it() { float k[3] = { 1, 1, 1 }; fill(k[floor(3 * u)]); color Ct = Cs * (k[0] + k[1] / 2); " + MATTE + " }",
        "surface it() { color Ct = Cs * (3 * u < 1 ? 0.75 : 3 * u < 2 ? 1.125 : 1.5); " + MATTE + " }", 0, "put in place"),
    "variables from outside": (
        "float stripe(float f) { extern float u; extern point P; return step(0.5, mod(f * u + 0.1 * xcomp(P), 1)); }"
        " surface it() { color Ct = Cs * stripe(6); " + MATTE + " }",
        "surface it() { color Ct = Cs * step(0.5, mod(6 * u + 0.1 * xcomp(P), 1)); " + MATTE + " }", 0, "put in place"),
    "a function in a function": (
        "float train(float edge, x) { float e = edge; float part(float t) { extern float e;"
        " return (1 - e) * floor(t) + max(0, t - floor(t) - e); } return part(x + 0.25) - part(x); }"
        " surface it() { color Ct = Cs * train(0.5, 7 * u) * 4; " + MATTE + " }",
        "float part(float t, e) { return (1 - e) * floor(t) + max(0, t - floor(t) - e); }"
        " surface it() { color Ct = Cs * (part(7 * u + 0.25, 0.5) - part(7 * u, 0.5)) * 4; " + MATTE + " }", 0, "put in place"),
    "two functions of one name in two": (
        "float one(float x) { float part(float t) { return t * t; } return part(x); }"
        " float two(float x) { float part(float t) { return t + 1; } return part(x) - part(0); }"
        " surface it() { color Ct = Cs * (one(u) + two(v)); " + MATTE + " }",
        "surface it() { color Ct = Cs * (u * u + v); " + MATTE + " }", 0, "put in place"),
    "returns in branches": (
        "float level(float x) { if (x < 0.25) return 0.2; else if (x < 0.5) return 0.5; float y = x * x; if (y > 0.6) { return 1; } return y; }"
        " surface it() { color Ct = Cs * level(u); " + MATTE + " }",
        "surface it() { float y = u < 0.25 ? 0.2 : u < 0.5 ? 0.5 : u * u > 0.6 ? 1 : u * u; color Ct = Cs * y; " + MATTE + " }",
        0, "put in place"),
    "a return in a loop": (
        "float turns(float x) { float i, j; for (i = 0; i < 6; i += 1) { for (j = 0; j < 3; j += 1) { if (i + j * 0.25 > x) return i + j; } }"
        " return 7; }"
        " surface it() { color Ct = Cs * turns(7 * u) / 8; " + MATTE + " }",
        "surface it() { float i, j, r = 7, done = 0; for (i = 0; i < 6 && done == 0; i += 1) { for (j = 0; j < 3 && done == 0; j += 1)"
        " { if (i + j * 0.25 > 7 * u) { r = i + j; done = 1; } } } color Ct = Cs * r / 8; " + MATTE + " }", 0, "put in place"),
    "a return in the middle": (
        "float late(float x) { float y = 0; if (x > 0.5) { y = 1; if (x > 0.75) return 0.3; y += x; } y += 0.25; return y / 2; }"
        " surface it() { color Ct = Cs * late(u); " + MATTE + " }",
        "surface it() { float y = u > 0.75 ? 0.3 : u > 0.5 ? (1.25 + u) / 2 : 0.125; color Ct = Cs * y; " + MATTE + " }", 0, "put in place"),
    "a return in a shader": (
        "surface it() { Oi = Os; if (u < 0.5) { Ci = Cs; return; } Ci = Cs * v; }",
        "surface it() { Oi = Os; if (u < 0.5) Ci = Cs; else Ci = Cs * v; }", 0, "`return` in a shader"),
    "a return over lights": (
        "color first() { extern point P; extern normal N; extern vector L; extern color Cl; color c = 0; illuminance(P, N, PI / 2)"
        " { c += Cl * 0.5; if (comp(c, 0) > 0.1) return c; } return color(1, 0, 0); }"
        " surface it() { Ci = Cs * first(); Oi = Os; }",
        "surface it() { color c = color(1, 0, 0); illuminance(P, N, PI / 2) c = Cl * 0.5; Ci = Cs * c; Oi = Os; }", 0, "put in place"),
    "an argument that the body changes": (
        "float halved(float x) { x /= 2; extern float s; return x + s; } surface it() { float a = u; color Ct = Cs * (halved(a) + a); " + MATTE + " }",
        "surface it() { color Ct = Cs * (u / 2 + s + u); " + MATTE + " }", 0, "put in place"),
    "arrays": (
        "surface it() { float k[4] = { 0.1, 0.9, 0.3, 0.7 }; float sum = 0, i; k[2] *= 2; k[3.0 - 3] = 0.2;"
        " for (i = 0; i < 4; i += 1) sum += k[i] * (i + 1); color Ct = Cs * (k[4 * u] + sum / 40); " + MATTE + " }",
        "surface it() { float x = 4 * u; float a = x < 1 ? 0.2 : x < 2 ? 0.9 : x < 3 ? 0.6 : 0.7; color Ct = Cs * (a + (0.2 + 1.8 + 1.8 + 2.8) / 40); "
        + MATTE + " }", 1, "taken apart"),
    "an array that is a parameter": (
        "surface it(float k[2] = { 0.3, 0.6 }; color c[2] = { color(1, 0, 0), 1 };) { color Ct = c[0] * k[0] + c[1] * k[1]; " + MATTE + " }",
        "surface it() { color Ct = color(0.9, 0.6, 0.6); " + MATTE + " }", 1, "the parameter `k`, an array"),
    "an assignment in an expression": (
        "surface it() { float a, b; a = b = u; color Ct = Cs * (a + b) / 2; " + MATTE + " }",
        "surface it() { color Ct = Cs * u; " + MATTE + " }", 0, "an assignment in an expression"),
    "numbers as conditions": (
        "surface it(float on = 1;) { color Ct = 0; float k = 3; if (on) Ct = Cs; while (k) { Ct *= 0.9; k -= 1; } if (!on || on && u > 2) Ct = 0; "
        + MATTE + " }",
        "surface it(float on = 1;) { color Ct = Cs * 0.9 * 0.9 * 0.9; " + MATTE + " }", 1, "a number as a condition"),
    "lines of the preprocessor": (
        "#define SQR(x) ((x) * (x))\n#if 1\n#define TINT color(1, SQR(u), 0)\n#else\n#error no\n#endif\nsurface it() { color Ct = TINT; " + MATTE + " }",
        "surface it() { color Ct = color(1, u * u, 0); " + MATTE + " }", 0, "= it.sl:1: lines of the preprocessor"),
    "setcomp and its like": (
        "surface it() { color Ct = Cs; setcomp(Ct, 1, u); point q = P; setxcomp(q, v); setzcomp(q, 0); Ct *= xcomp(q) + zcomp(q); " + MATTE + " }",
        "surface it() { color Ct = color(comp(Cs, 0), u, comp(Cs, 2)) * v; " + MATTE + " }", 0, "`setcomp`"),
    "area": (
        "surface it() { float w = sqrt(area(P)); color Ct = Cs * w * 8; " + MATTE + " }",
        "surface it() { color Ct = Cs * sqrt(length((Du(P) * du) ^ (Dv(P) * dv))) * 8; " + MATTE + " }", 0, "`area`"),
    "colours as points": (
        "surface it() { point q = Cs; color Ct = point(u, v, 0) * Cs + xcomp(Cs) * 0.1 + comp(q, 2) * 0.1; " + MATTE + " }",
        "surface it() { color Ct = color(u, v, 0) * Cs + comp(Cs, 0) * 0.1 + comp(Cs, 2) * 0.1; " + MATTE + " }", 0, "colours and points"),
    "functions of colours": (
        "surface it() { color Ct = smoothstep(0.2, 0.8, Cs * u * 1.5) + sqrt(Cs) * 0.1; " + MATTE + " }",
        "surface it() { color k = Cs * u * 1.5; color Ct = color(smoothstep(0.2, 0.8, comp(k, 0)), smoothstep(0.2, 0.8, comp(k, 1)),"
        " smoothstep(0.2, 0.8, comp(k, 2))) + color(sqrt(comp(Cs, 0)), sqrt(comp(Cs, 1)), sqrt(comp(Cs, 2))) * 0.1; " + MATTE + " }",
        0, "part by part"),
    "a normal that a surface writes": (
        "surface it() { N = calculatenormal(P + 0.1 * sin(20 * u) * normalize(N)); color Ct = Cs; " + MATTE + " }",
        "surface it() { normal M = calculatenormal(P + 0.1 * sin(20 * u) * normalize(N)); color Ct = Cs;"
        " Ci = Os * Ct * (0.3 * ambient() + diffuse(faceforward(normalize(M), I))); Oi = Os; }", 0, "`N`, which a surface doesn't write"),
    "s and t that are written": (
        "surface it() { s *= 4; t = t * 3 + s; color Ct = Cs * mod(t, 1); " + MATTE + " }",
        "surface it() { color Ct = Cs * mod(t * 3 + s * 4, 1); " + MATTE + " }", 0, "`s`, which a surface doesn't write"),
    "phong": (
        "surface it() { color Ct = Cs * 0.2 + phong(normalize(N), -normalize(I), 12); " + MATTE + " }",
        "surface it() { vector R = reflect(normalize(I), normalize(N)); color c = 0; illuminance(P, normalize(N), PI / 2)"
        " c += Cl * pow(max(0, R . normalize(L)), 12); color Ct = Cs * 0.2 + c; " + MATTE + " }", 1, "`phong`"),
    "two arguments of illuminance": (
        "surface it() { color Ct = 0; illuminance(P, normalize(N)) Ct += Cl * 0.5; " + MATTE + " }",
        "surface it() { color Ct = 0; illuminance(P, normalize(N), PI / 2) Ct += Cl * 0.5; " + MATTE + " }", 0, "half space"),
    "a head of a loop that needs statements": (
        "float up(float x; output float y) { y = x + 1; return y; } surface it() { float i = 0, n, sum = 0;"
        " for (i = 0; up(i, n) < 4; i = n) { if (i == 1) continue; sum += n; } color Ct = Cs * sum / 5 * u; " + MATTE + " }",
        "surface it() { color Ct = Cs * 4 / 5 * u; " + MATTE + " }", 1, "the head of a loop"),
    "branches that assign": (
        "float f(output float x) { x += 1; return x; } surface it() { float a = 0; float b = u < 0.5 ? f(a) : 0.5; color Ct = Cs * (a + b) / 2; "
        + MATTE + " }",
        "surface it() { color Ct = Cs * (u < 0.5 ? 1 : 0.25); " + MATTE + " }", 0, "put in place"),
    "jumps out of several loops": (
        "surface it() { float i, j, n = 0; for (i = 0; i < 5; i += 1) { for (j = 0; j < 5; j += 1) { if (i * j > 6 * u) break 2;"
        " if (j > i) continue 2; n += 1; } n += 0.5; } color Ct = Cs * n / 12; " + MATTE + " }",
        "surface it() { float i, j, n = 0, out = 0, on = 0; for (i = 0; i < 5 && out == 0; i += 1) { on = 0; for (j = 0; j < 5 && out + on == 0; j += 1)"
        " { if (i * j > 6 * u) out = 1; else if (j > i) on = 1; else n += 1; } if (out + on == 0) n += 0.5; } color Ct = Cs * n / 12; " + MATTE + " }",
        0, "`break` out of 2 loops"),
    "jumps out of three loops": (
        "surface it() { float i, j, k, n = 0; for (i = 0; i < 4; i += 1) for (j = 0; j < 4; j += 1) { for (k = 0; k < 4; k += 1) {"
        " if (i + j + k > 8 * u) break 3; n += 1; } } color Ct = Cs * n / 60; " + MATTE + " }",
        "surface it() { float i, j, k, n = 0, out = 0; for (i = 0; i < 4; i += 1) for (j = 0; j < 4; j += 1) for (k = 0; k < 4; k += 1) {"
        " if (i + j + k > 8 * u) out = 1; if (out == 0) n += 1; } color Ct = Cs * n / 60; " + MATTE + " }", 0, "`break` out of 3 loops"),
    "jumps over lights": (
        "surface it() { color Ct = 0; illuminance(P, normalize(N), PI / 2) { if (u > 0.7) continue; Ct += 0.2; if (v > 0.7) break; Ct += Cl * Cs; } "
        + MATTE + " }",
        "surface it() { color Ct = 0; illuminance(P, normalize(N), PI / 2) { if (u <= 0.7) { Ct += 0.2; if (v <= 0.7) Ct += Cl * Cs; } } "
        + MATTE + " }", 0, "`continue` in a statement over lights"),
    "parts at places that vary": (
        "surface it() { float i; color Ct = Cs; for (i = 0; i < 3; i += 1) setcomp(Ct, i, pow(comp(Ct, i), 2) + 0.1 * comp(Cs, 3 * u)); " + MATTE + " }",
        "surface it() { float a = 0.1 * (3 * u < 1 ? comp(Cs, 0) : 3 * u < 2 ? comp(Cs, 1) : comp(Cs, 2));"
        " color Ct = color(pow(comp(Cs, 0), 2), pow(comp(Cs, 1), 2), pow(comp(Cs, 2), 2)) + a; " + MATTE + " }", 0, "at a place that varies"),
    "further parameters": (
        'surface it() { color Ct = Cs * diffuse(normalize(N), "facing", 1); ' + MATTE + " }",
        "surface it() { color Ct = Cs * diffuse(normalize(N)); " + MATTE + " }", 0, "further parameters of `diffuse`"),
    "textures by strings that change": (
        'void pick(float k; output string name;) { if (k > 1) name = "b.ppm"; }'
        ' surface it(string map = "a.ppm"; float k = 2;) { string which = map; string row[2] = { "a.ppm", "b.ppm" }; pick(k, which);'
        ' string first = map, second = first; if (k == 3) map = "c.ppm"; color Ct = texture(which, s, t) + 0.5 * texture(row[0]) + 0.2 * float texture(row[1], t, s) + 0.3 * texture(map) + 0.1 * texture(second); '
        + MATTE + " }",
        'surface it() { color Ct = texture("b.ppm", s, t) + 0.5 * texture("a.ppm") + 0.2 * float texture("b.ppm", t, s) + 0.3 * texture("a.ppm") + 0.1 * texture("a.ppm"); '
        + MATTE + " }", 0, "a texture whose name is in a variable"),
    "strings that are settled": (
        'surface it(string map = "";) { uniform string name = "wood"; color Ct = name == "wood" && map == concat("", "") ? Cs : 0; ' + MATTE + " }",
        "surface it() { color Ct = Cs; " + MATTE + " }", 0, "written out joined"),
    "spaces by strings": (
        'surface it(string space = "world";) { point q = transform(space, P); color Ct = Cs * (0.5 + 0.5 * xcomp(q)); ' + MATTE + " }",
        'surface it() { point q = transform("world", P); color Ct = Cs * (0.5 + 0.5 * xcomp(q)); ' + MATTE + " }", 0, "a space whose name"),
    "uniform variables that vary": (
        "surface it() { uniform float a = 0.5; uniform color Ct = Cs; if (u > 0.5) a = 1; Ct *= a; " + MATTE + " }",
        "surface it() { float a = 0.5; color Ct = Cs; if (u > 0.5) a = 1; Ct *= a; " + MATTE + " }", 0, "declared varying"),
    "derivatives in loops": (
        "surface it() { float i, w = 0; for (i = 1; i < 4; i += 1) w += abs(Du(i * u) * du) / i; color Ct = Cs * w * 8; " + MATTE + " }",
        "surface it() { uniform float i; float w = 0; for (i = 1; i < 4; i += 1) w += abs(Du(i * u) * du) / i; color Ct = Cs * w * 8; "
        + MATTE + " }", 0, "declared uniform"),
    "derivatives before conditions": (
        "surface it() { color Ct = Cs; if (v > 0.5) { Ct *= abs(Du(u * u)); } " + MATTE + " }",
        "surface it() { float d = Du(u * u); color Ct = Cs; if (v > 0.5) Ct *= abs(d); " + MATTE + " }", 0, "put before the condition"),
    "derivatives under conditions": (
        "surface it() { color Ct = Cs; if (v > 0.5) { float k = u * v; Ct *= abs(Du(k)); if (u < 0.3) Ct += abs(Dv(k)); } else Ct *= 0.5; " + MATTE + " }",
        "surface it() { color Ct = Cs; float k = u * v; float a = Du(k), b = Dv(k); if (v > 0.5) { Ct *= abs(a); if (u < 0.3) Ct += abs(b); }"
        " else Ct *= 0.5; " + MATTE + " }", 0, "computed at all points"),
    "derivatives in functions under conditions": (
        "float rate(float x) { return abs(Du(x)); } surface it() { color Ct = Cs; if (v > 0.5) { float k = u * v; Ct *= rate(k); } " + MATTE + " }",
        "surface it() { color Ct = Cs; float a = abs(Du(u * v)); if (v > 0.5) Ct *= a; " + MATTE + " }", 0, "computed at all points"),
    "derivatives in functions with loops": (
        "float rate(float x, n) { float i, sum = 0; for (i = 1; i < n; i += 1) sum += abs(Du(x * i)); return sum; }"
        " surface it() { color Ct = Cs * rate(u * v, 3) / 4; " + MATTE + " }",
        "surface it() { color Ct = Cs * (abs(Du(u * v)) + abs(Du(u * v * 2))) / 4; " + MATTE + " }", 0, "declared uniform"),
    "uniform formals of what varies": (
        "float parts(uniform float n; float x) { uniform float i; float sum = 0; for (i = 0; i < n; i += 1) sum += x / (i + 1); return sum; }"
        " surface it() { color Ct = Cs * parts(3 * u, v) / 2; " + MATTE + " }",
        "float parts(float n; float x) { float i; float sum = 0; for (i = 0; i < n; i += 1) sum += x / (i + 1); return sum; }"
        " surface it() { color Ct = Cs * parts(3 * u, v) / 2; " + MATTE + " }", 0, "declared varying"),
    "further forms of text": (
        "surface it(float a = .5, float b = 0.25; color c;) { varying float x, y; color Ct = Cs * (a + + b) * (c + 1); for (x = 0; ; x += 1) if (x > 2) break; "
        + MATTE + " }",
        "surface it() { color Ct = Cs * 0.75; " + MATTE + " }", 0, "parameters parted"),
    "functions after the shader": (
        "surface it() { color Ct = Cs * twice(u); " + MATTE + " } twice(float x) { return 2 * x; };",
        "surface it() { color Ct = Cs * 2 * u; " + MATTE + " }", 0, "after the shader"),
}


def textures(folder: Path) -> None:
    """Pictures that shaders of these tests look up."""
    for count, name in enumerate("abc", 1):
        rows = np.indices((8, 8)).sum(axis=0)[..., None] * np.array([count, 5, 9 - count]) * 2
        picture.write(folder / f"{name}.ppm", rows.astype(np.uint8))


@pytest.mark.parametrize("name", PASSES)
def test_pass(name: str, program: Path, tmp_path: Path) -> None:
    text, by_hand, levels, told = PASSES[name]
    found, lines = brought(text)
    textures(tmp_path)
    assert any(told in it for it in lines), lines
    rows = drawn(program, tmp_path, found.text)
    assert rows.std() > 5
    assert difference(rows, drawn(program, tmp_path, by_hand)) <= levels, found.text.decode()


@pytest.mark.parametrize("name", PASSES)
def test_what_is_written_needs_no_change(name: str, program: Path, tmp_path: Path) -> None:
    found, _ = brought(PASSES[name][0])
    again, lines = brought(found.text.decode())
    assert again.text == found.text and not lines
    textures(tmp_path)
    assert accepted(program, tmp_path, found.text, found.kind) == ()


def test_nothing_of_the_examples_changes(examples: Path) -> None:
    for path in sorted(examples.glob("*.sl")):
        if path.name != "broken.sl":
            text = path.read_text("latin-1")
            found, lines = brought(text)
            assert found.text == text.encode("latin-1") and lines == [], path.name


def test_spaces_of_the_scene(program: Path, tmp_path: Path) -> None:
    # "outside" is set by the scene that is drawn, 5 before the camera; a matrix takes it to world, which stands there too
    turned = np.array([[0.0, 2, 0, 0], [-2, 0, 0, 0], [0, 0, 2, 0], [0.5, 0, 0, 1]])
    text = 'surface it() {{ point q = {}; vector w = {}; Ci = color(0.5 + 0.2 * xcomp(q), 0.5 + 0.2 * ycomp(q), 0.5 + 0.1 * xcomp(w)); Oi = 1; }}'
    found, lines = brought(text.format('transform("turned", P)', 'vtransform("turned", vector(1, 2, 3))'), spaces={"turned": turned})
    assert lines == ['= it.sl:1: the space "turned" by its matrix']
    q = 'transform("world", P)'
    hand = text.format(f"point(ycomp({q}) / 2, (0.5 - xcomp({q})) / 2, 0)", "vector(1, 0, 0)")
    assert difference(drawn(program, tmp_path, found.text), drawn(program, tmp_path, hand)) <= 1
    back, _ = brought('surface it() { point q = point "turned" (transform("turned", P)); Ci = 20 * distance(P, q); Oi = 1; }', spaces={"turned": turned})
    assert drawn(program, tmp_path, back.text).max() <= 1


def test_spaces_of_a_screen(program: Path, tmp_path: Path) -> None:
    # rows: x and y of a picture from 0 to 1 over the depth, as a perspective of 40 degrees has them, 5 behind the camera
    wide = 2 * np.tan(np.radians(20))
    to_screen = np.array([[1 / wide, 0, 0, 0], [0, -1 / wide, 0, 0], [0.5, 0.5, 1, 1], [2.5, 2.5, 0, 5]])
    found, _ = brought('surface it() { point q = transform("NDC", P); Ci = color(xcomp(q), ycomp(q), 0); Oi = 1; }', spaces={"NDC": np.linalg.inv(to_screen)})
    rows = drawn(program, tmp_path, found.text)
    seen = rows[..., 0] > 0
    across = np.broadcast_to((np.arange(64) + 0.5) * 255 / 64, (64, 64))
    assert seen.sum() > 500 and np.max(np.abs(rows[..., 0] - across)[seen]) <= 6


def test_spaces_by_strings_among_those_of_the_scene(program: Path, tmp_path: Path) -> None:
    text = 'surface it(string where = "turned";) { point q = transform(where, P); Ci = 0.5 + 0.2 * xcomp(q); Oi = 1; }'
    rows = {"turned": np.diag([2.0, 2, 2, 1]), "odd \"": np.eye(4), "oth\u00e9r": np.eye(4)}
    found, lines = brought(text, spaces=rows)
    assert not any(it.startswith("!") for it in lines)
    hand = 'surface it() { point q = transform("world", P) / 2; Ci = 0.5 + 0.2 * xcomp(q); Oi = 1; }'
    assert difference(drawn(program, tmp_path, found.text), drawn(program, tmp_path, hand)) <= 1
    found, lines = brought(text, spaces={f"s{k}": np.eye(4) for k in range(5000)})
    assert any(it.startswith("! it.sl:1: a string is compared") for it in lines) and len(found.text) < 2000


SPACES = """Display "spaces.ppm" "file" "rgb"
Format 96 64 1
PixelSamples 1 1
PixelFilter "box" 1 1
Projection {projection}
Translate 0.3 0 5
Rotate 20 0 1 0
WorldBegin
TransformBegin
Scale 2 2 2
CoordinateSystem "large"
TransformEnd
Surface "spaces"
Sphere 0.9 -0.9 0.9 360
WorldEnd
"""


@pytest.mark.parametrize("projection", ['"perspective" "fov" [30]', '"orthographic"'])
def test_spaces_of_a_scene_that_is_brought(projection: str, program: Path, tmp_path: Path) -> None:
    (tmp_path / "scene.rib").write_text(SPACES.format(projection=projection))
    (tmp_path / "spaces.sl").write_text(
        'surface spaces() { point q = transform("NDC", P), r = transform("raster", P), w = transform("large", P) * 2 - transform("world", P);'
        " Ci = color(xcomp(q), ycomp(q), 0.5 + xcomp(r) / 96 - xcomp(q) + length(vector w)); Oi = 1; }")
    assert command.run(["bring_in", str(tmp_path / "scene.rib"), str(tmp_path / "out")]) == 0
    assert renderer.run(["render", "scene.rib"], tmp_path / "out", program).status == 0
    rows = picture.read(tmp_path / "out" / "spaces.ppm").astype(float)
    seen = rows[..., 0] > 0
    across, down = np.meshgrid((np.arange(96) + 0.5) / 96 * 255, (np.arange(64) + 0.5) / 64 * 255)
    # a point of a grid is up to two pixels from the sample that shows it
    assert seen.sum() > 500 and np.max(np.abs(rows[..., 0] - across)[seen]) <= 6 and np.max(np.abs(rows[..., 1] - down)[seen]) <= 8
    assert np.max(np.abs(rows[..., 2] - 127.5)[seen]) <= 1


def test_space_that_nobody_names() -> None:
    found, lines = brought('surface it() { float n = noise(transform("marble", P)); Ci = n; Oi = 1; }')
    assert b'transform("shader", P)' in found.text
    assert lines == ['! it.sl:1: the space "marble", which the scene doesn\'t name, taken as "shader"']
