"""Shaders of each kind, what is left out of them, what can't be brought, and texts that are broken."""
from __future__ import annotations

import shutil
from pathlib import Path

import pytest
from hypothesis import given, strategies as st

from reyes import command
from reyes.bring.changes import Changes
from reyes.bring.shaders import lower
from shading import accepted, brought, difference, drawn

# What has a meaning that the profile hasn't: the text, the same by hand with what is taken for it, the kind, and what is told.
LEFT = {
    "shadows": (
        'light it(string map = "m";) { illuminate(point "shader" (1, 2, -4)) { float k = 1; if (map != "") k = 1 - shadow(map, Ps, "samples", 4);'
        " Cl = k * 20 / (L . L); } }",
        'light it(string map = "m";) { illuminate(point "shader" (1, 2, -4)) Cl = 20 / (L . L); }', "light", "! it.sl:1: `shadow` taken as nothing"),
    "light of an area": (
        "light it() { illuminate(P, N, PI / 2) Cl = 20 / (L . L); }",
        'light it() { illuminate(point "shader" (0, 0, 0), normal "shader" (0, 0, 1), PI / 2) Cl = 20 / (L . L); }', "light", "~ it.sl:1: `P` in a light"),
    "light from all directions": (
        "light it() { solar() Cl = 0.7; }", 'light it() { solar(vector "shader" (0, 0, 1), 0) Cl = 0.7; }', "light", "~ it.sl:1: light from all"),
    "several statements that light": (
        'light it(float kind = 2;) { point q = point "shader" (1, 2, -4); if (kind == 1) { illuminate(q) { float d = L . L; Cl = 30 / d; } }'
        ' else if (kind == 2) { float half = 0.2; vector a = point "world" (0.75, 0, 0) - q; float half2 = half / 2;'
        " illuminate(q, a, half2) { float d = L . L; Cl = 20 / d; } } else { solar(vector (0, 0, 1), 0) Cl = 1; } }",
        'light it(float kind = 2;) { point q = point "shader" (1, 2, -4); vector a = point "world" (0.75, 0, 0) - q; illuminate(q, a, 0.1) Cl = 20 / (L . L); }',
        "light", "~ it.sl:1: several statements that light made one"),
    "the last of several statements that light": (
        'light it(float kind = 3;) { if (kind == 1) { float d = 3; illuminate(point "shader" (1, 2, -4)) Cl = d; }'
        ' else { float d = 0.7; solar(vector "shader" (0.5, -0.3, 1), 0) { float e = d; Cl = e; } } }',
        'light it(float kind = 3;) { solar(vector "shader" (0.5, -0.3, 1), 0) Cl = 0.7; }', "light", "~ it.sl:1: several statements that light made one"),
    "a default of defaults": (
        "surface it(float a = 0.5, b = a * 0.5; color c = (color(1, 0, 0) + b) / 2;) { Ci = c * (0.1 + u); Oi = 1; }",
        "surface it() { Ci = color(0.625, 0.125, 0.125) * (0.1 + u); Oi = 1; }", "surface", "= it.sl:1: the default of `b` computed"),
    "defaults in spaces and by functions": (
        'surface it(point a = point "world" (0.2, 0, 0); varying color c = color "hsv" (u, 1, 1); float f = asin(0.5);)'
        " { Ci = c * (0.5 + 0.5 * xcomp(a)) + f; Oi = 1; }",
        'surface it() { color c = color(clamp(abs(u * 6 - 3) - 1, 0, 1), clamp(2 - abs(u * 6 - 2), 0, 1), clamp(2 - abs(u * 6 - 4), 0, 1));'
        ' Ci = c * (0.5 + 0.5 * xcomp(point "world" (0.2, 0, 0))) + 0.5236; Oi = 1; }', "surface", "= it.sl:1: the default of `a` computed"),
    "textures in lights": (
        'light it() { illuminate(point "shader" (1, 2, -4)) Cl = 20 * color texture("slide.tex", 0.5, 0.5) / (L . L); }',
        'light it() { illuminate(point "shader" (1, 2, -4)) Cl = 20 / (L . L); }', "light", "! it.sl:1: `texture` in a light taken as white"),
    "rays": (
        'surface it() { Ci = Cs * 0.3 + trace(P, reflect(I, N)) + environment("sky.env", N) + Cs * (1 - occlusion(P, N, 16, "maxdist", 9)); Oi = Os; }',
        "surface it() { Ci = Cs * 0.3 + Cs; Oi = Os; }", "surface", "! it.sl:1: `trace` taken as nothing"),
    "rays that are gathered": (
        'surface it() { color hit = 0, sum = 0; gather("illuminance", P, N, 0.1, 8, "surface:Ci", hit) { sum += hit; } else { sum += 0.25; }'
        " Ci = sum * Cs; Oi = Os; }",
        "surface it() { Ci = 0.25 * Cs; Oi = Os; }", "surface", "! it.sl:1: `gather`"),
    "messages": (
        'surface it() { float k = 0.5; color c = 0; illuminance(P, N, PI / 2) { if (lightsource("__nonspecular", k) == 0) k = 0.25; c += Cl * k; }'
        ' if (surface("Kd", k) != 0) c = 0; Ci = Cs * c; Oi = Os; }',
        "surface it() { color c = 0; illuminance(P, N, PI / 2) c += Cl * 0.25; Ci = Cs * c; Oi = Os; }", "surface",
        "! it.sl:1: `lightsource` taken as without an answer"),
    "categories of lights": (
        'surface it() { color c = 0; illuminance("key", P, N, PI / 2, "lightcache", "refresh") c += Cl; Ci = Cs * c * 0.5; Oi = Os; }',
        "surface it() { color c = 0; illuminance(P, N, PI / 2) c += Cl; Ci = Cs * c * 0.5; Oi = Os; }", "surface", "! it.sl:1: the category of lights"),
    "lights in a volume": (
        "volume it() { color c = 0; illuminance(P) c += Cl; Ci = mix(Ci, c, 0.3); Oi = mix(Oi, color 1, 0.3); }",
        "volume it() { Ci = mix(Ci, color 1, 0.3); Oi = mix(Oi, color 1, 0.3); }", "volume", "! it.sl:1: the lights of a volume"),
    "lights in a displacement": (
        "displacement it() { float k = 0.1; illuminance(P) k = 0; P += k * sin(9 * u) * normalize(N); N = calculatenormal(P); }",
        "displacement it() { P += 0.1 * sin(9 * u) * normalize(N); N = calculatenormal(P); }", "displacement", "! it.sl:1: `illuminance` in a"),
    "variables of a surface in a volume": (
        "volume it() { Ci = mix(Ci, Cs + 0.5, 0.5 + s); Oi = Oi; }", "volume it() { Ci = mix(Ci, color 0.5, 0.5); Oi = Oi; }", "volume",
        "! it.sl:1: `Cs` in a volume taken as 0"),
    "colours of a displacement": (
        "displacement it() { Ci = Cs; P += 0.1 * sin(9 * u) * normalize(N); N = calculatenormal(P); }",
        "displacement it() { P += 0.1 * sin(9 * u) * normalize(N); N = calculatenormal(P); }", "displacement", "! it.sl:1: `Ci` in a displacement"),
    "a place that a surface moves": (
        "surface it() { P += 0.1 * N; N = calculatenormal(P); Ci = Cs * diffuse(faceforward(normalize(N), I)); Oi = Os; }",
        "surface it() { point q = P + 0.1 * N; normal n = calculatenormal(q); Ci = Cs * diffuse(faceforward(normalize(n), I)); Oi = Os; }", "surface",
        "~ it.sl:1: `P`, which a surface doesn't write here, copied"),
    "the time": ("surface it() { Ci = Cs * (1 - time); Oi = Os; }", "surface it() { Ci = Cs; Oi = Os; }", "surface", "~ it.sl:1: `time` taken as 0"),
    "light outside of a statement": (
        "surface it() { color c = Cl; vector d = L; Ci = Cs * 0.5 + c + xcomp(d); Oi = Os; }", "surface it() { Ci = Cs * 0.5; Oi = Os; }", "surface",
        "! it.sl:1: `Cl` outside of a statement over lights"),
    "a filter's step": (
        "surface it() { Ci = Cs * filterstep(0.5, u); Oi = Os; }",
        "surface it() { float w = max(abs(Du(u) * du) + abs(Dv(u) * dv), 0.00002); Ci = Cs * clamp((u + w / 2 - 0.5) / w, 0, 1); Oi = Os; }", "surface",
        "~ it.sl:1: `filterstep` as a ramp"),
    "numbers that are too small": (
        "surface it() { Ci = Cs * (0.00001 / max(0.0000001, 0)); Oi = Os; }", "surface it() { Ci = Cs; Oi = Os; }", "surface",
        "~ it.sl:1: 0.0000001 taken as 1/65536"),
    "noise with a period": (
        "surface it() { Ci = Cs * float pnoise(9 * u, 3); Oi = Os; }", "surface it() { Ci = Cs * noise(mod(9 * u, 3)); Oi = Os; }", "surface",
        "~ it.sl:1: `pnoise`"),
    "noise of four numbers": (
        "surface it() { float f = noise(P * 3, 0.5); Ci = Cs * f; Oi = Os; }",
        "surface it() { float f = noise(P * 3 + vector(0.35, 0.2, 0.3)); Ci = Cs * f; Oi = Os; }", "surface", "~ it.sl:1: noise of a point and a fourth"),
}


@pytest.mark.parametrize("name", LEFT)
def test_what_is_taken_otherwise(name: str, program: Path, tmp_path: Path) -> None:
    text, by_hand, kind, told = LEFT[name]
    found, lines = brought(text)
    assert any(it.startswith(told) for it in lines), lines
    assert found.kind == kind
    one, other = drawn(program, tmp_path, found.text, kind), drawn(program, tmp_path, by_hand, kind)
    assert one.std() > 5 and difference(one, other) <= 1, found.text.decode()
    again, lines = brought(found.text.decode())
    assert again.text == found.text and lines == []


# What can't be brought, and what is said of it.
NEVER = {
    "imager it() { Ci = 1; }": "X it.sl:1: a shader of the kind imager",
    "transformation it() { P += 1; }": "X it.sl:1: a shader of the kind transformation",
    "surface it(matrix m = 1;) { Ci = 1; }": "X it.sl:1: matrices",
    "surface it() {\n matrix m = 1;\n Ci = 1; }": "X it.sl:2: matrices",
    'surface it() { Ci = 1; P = transform(matrix "world" 1, P); }': "X it.sl:1: matrices",
    "float f(float x) { return f(x) + g(x); } float g(float x) { return x; } surface it() { Ci = f(u); }": "X it.sl:1: function `f` calls itself",
    "surface it() { Ci = nothere(u); }": "X it.sl:1: function `nothere` isn't known",
    "surface it() { Ci = nothere; }": "X it.sl:1: variable `nothere` isn't known in a surface",
    "surface it() {\n while (u < 1) { break 2; } }": "X it.sl:2: `break` out of more loops than stand around it",
    "surface it() { Ci = 1; continue; }": "X it.sl:1: `continue` out of more loops than stand around it",
    "surface it() { illuminance(P) { illuminance(P) Ci += Cl; } }": "X it.sl:1: `illuminance` in another",
    'surface it() { Ci = color "lab" (1, 2, 3); }': "X it.sl:1: the colour space \"lab\"",
    "surface it() { float a[9999]; Ci = a[0]; }": "X it.sl:1: an array whose length isn't a number from 1 to 1000",
    "surface it() { string a = format(\"%f\", u); Ci = a == \"\" ? 1 : 0; }": "X it.sl:1: strings that are made",
    "surface it() { Ci = 1 }": "X it.sl:1: `;` is missing before `}`",
    "surface it() { Ci = \"abc; }": "X it.sl:1: a string that isn't ended",
    "surface it() { Ci = 1;": "X it.sl:1: `}` is missing at the end",
    "surface it() { Ci = @; }": "X it.sl:1: @ begins no word",
    "float f() { return 1; }": "X it.sl:1: there is no shader",
    "": "X it.sl:1: there is no shader",
    "#include \"nothere.h\"\nsurface it() { Ci = 1; }": "X it.sl:1: #include or macro: nothere.h: isn't in the folders",
    "#if 1\nsurface it() { Ci = 1; }": "X it.sl:1: #include or macro: unterminated",
    "surface it() { while (u < 1) { Ci = Du(Ci); } }": "X it.sl:1: a derivative or a texture in a loop that varies",
}


@pytest.mark.parametrize("text", NEVER)
def test_what_cannot_be_brought(text: str) -> None:
    found, lines = brought(text)
    assert found.text == b"" and found.held
    assert any(it.startswith(NEVER[text]) for it in lines), lines


def test_deep_and_long_texts_end(monkeypatch: pytest.MonkeyPatch) -> None:
    for text in (
        "surface it() { Ci = " + "(" * 5000 + "1" + ")" * 5000 + "; }", "surface it() { " + "{" * 5000 + "}" * 5000 + " }",
        "surface it() { Ci = " + "-" * 5000 + "1; }", "surface it() { Ci = 1" + " + u" * 5000 + "; }",
        "surface it() { if (u < 1) Ci = 1;" + " else if (u < 1) Ci = 1;" * 5000 + " }",
    ):
        found, lines = brought(text)
        assert found.text == b"" and lines[0].startswith("X it.sl:1: ") and len(lines) == 1, lines
    # each function calls the one before it twice: a million calls in the end; the limit is set low, since it takes its time
    monkeypatch.setattr("reyes.bring.shaders.work.MOST_PARTS", 3000)
    rows = ["void f0(output float x) { x += 1; }"] + [f"void f{k}(output float x) {{ f{k - 1}(x); f{k - 1}(x); }}" for k in range(1, 20)]
    found, lines = brought("\n".join(rows) + "\nsurface it() { float x = 0; f19(x); Ci = x; }")
    assert found.text == b"" and any("more than 3000 parts" in it for it in lines)


def test_functions_that_grow_end(monkeypatch: pytest.MonkeyPatch) -> None:
    monkeypatch.setattr("reyes.bring.shaders.work.MOST_PARTS", 3000)
    rows = ["float f0(float x) { extern float u; return x + u; }"]
    rows += [f"float f{k}(float x) {{ extern float u; return f{k - 1}(x) + f{k - 1}(x); }}" for k in range(1, 40)]
    found, lines = brought("\n".join(rows) + "\nsurface it() { Ci = f39(v); }")
    assert found.text == b"" and any("more than 3000 parts" in it for it in lines)
    inner = "u"
    for _ in range(40):
        inner = f"comp(Cs, {inner})"
    assert brought(f"surface it() {{ Ci = {inner}; Oi = 1; }}")[1][-1].startswith("X it.sl:1: a part of a colour at a place that is")


def test_a_long_text_is_read_once(tmp_path: Path) -> None:
    body = "".join(f"float a{k} = u * {k}; Ci += a{k};" for k in range(1000))
    found, lines = brought("surface it() { Ci = 0; " + body + " Oi = 1; }")
    assert lines == [] and found.text.startswith(b"surface it()")


def test_a_preprocessor_that_is_not_there(monkeypatch: pytest.MonkeyPatch) -> None:
    monkeypatch.setenv("PATH", "")
    changes = Changes()
    assert lower(b"\n#define ONE 1\nsurface it() { Ci = ONE; }", "it.sl", (), {}, changes).text == b""
    assert changes.lines()[0].startswith("X it.sl:2: `cpp` isn't there")


def test_macros_without_end_are_told(monkeypatch: pytest.MonkeyPatch) -> None:
    monkeypatch.setattr("reyes.bring.shaders.preprocess.LONGEST", 1 << 16)
    rows = ["#define A0 x x"] + [f"#define A{k} A{k - 1} A{k - 1} A{k - 1} A{k - 1}" for k in range(1, 9)]
    found, lines = brought("\n".join(rows) + "\nA8\n")
    assert found.text == b"" and lines[0].startswith("X it.sl:1: macros that make more than")


def test_comments_at_the_head_stay(program: Path, tmp_path: Path) -> None:
    head = "/* whose it is: J\xf8rgen */\n// and when"
    found, _ = brought(head + "\n\nsurface it() { /* not this */ Ci = u && v ? 1 : 0; Oi = 1; }")
    assert found.text.startswith(head.encode("latin-1") + b"\nsurface it") and b"not this" not in found.text
    assert accepted(program, tmp_path, found.text, "surface") == ()


def test_held_changes(tmp_path: Path) -> None:
    text = b"surface it() { color c = noise(P); Ci = c; Oi = 1; }"
    assert lower(text, "it.sl", (), {}, Changes("=")).held
    assert not lower(text, "it.sl", (), {}, Changes("=~")).held


def test_parameters_are_told() -> None:
    found, _ = brought("surface it(float k[2] = { 1, 2 }; output varying color c = 0; string name = \"\"; point p = 0;) { c = k[0]; Ci = c; Oi = 1; }")
    rows = {name: (it.type, it.uniform, it.length, it.names) for name, it in found.parameters.items()}
    assert rows == {
        "k": ("float", True, 2, ("k_0", "k_1")), "c": ("color", False, 0, ("c",)), "name": ("string", True, 0, ("name",)),
        "p": ("point", True, 0, ("p",)),
    }


def test_a_shader_alone(program: Path, tmp_path: Path, capsys: pytest.CaptureFixture[str]) -> None:
    for folder, line in (("include", '#include "square.h"'), ("elsewhere", "#define SQR(x) ((x) * (x))")):
        (tmp_path / folder).mkdir()
        (tmp_path / folder / ("more.h" if folder == "include" else "square.h")).write_text(line + "\n")
    if shutil.which("cpp") is None:
        pytest.skip("cpp isn't there")
    shader = tmp_path / "dots.sl"
    shader.write_text('#include "more.h"\nsurface dots() { color c = noise(P); Ci = SQR(u) * c; Oi = 1; }\n')
    assert command.run(["bring_in", str(shader), str(tmp_path / "out")]) == 3
    there = ["--path", str(tmp_path / "elsewhere")]
    assert command.run(["bring_in", str(shader), str(tmp_path / "out"), *there]) == 1
    assert sorted(it.name for it in (tmp_path / "out").iterdir()) == ["CHANGES"]
    assert command.run(["bring_in", str(shader), str(tmp_path / "out"), "--near", *there]) == 1
    assert accepted(program, tmp_path, (tmp_path / "out" / "dots.sl").read_bytes(), "surface") == ()
    assert "~ dots.sl:2: noise of three values" in capsys.readouterr().out
    # what is written is of the renderer's own words, and comes out as it went in
    own = tmp_path / "out" / "dots.sl"
    assert command.run(["bring_in", str(own), str(tmp_path / "again")]) == 0
    assert (tmp_path / "again" / "dots.sl").read_bytes() == own.read_bytes()
    # a fault of types is the renderer's to find
    (tmp_path / "wrong.sl").write_text("surface wrong() { Ci = 1;\n Oi = \"a\" + 1; }\n")
    assert command.run(["bring_in", str(tmp_path / "wrong.sl"), str(tmp_path / "out")]) == 3
    assert "X wrong.sl: refused by the renderer: wrong.sl:2: T2" in capsys.readouterr().out
    assert command.run(["bring_in", str(tmp_path / "nothere.sl"), str(tmp_path / "out")]) == 6


PIECES = st.sampled_from(
    "surface it ( ) { } [ ] ; , = += . ^ ? : < && ! - 1 0.5 1e9 \"a\" \"world\" float color point vector normal string matrix void uniform varying "
    "output extern if else while for break continue return illuminance illuminate solar gather P N u v s t L Cl Ci Oi Cs x y f noise texture "
    "spline asin atan Du area fresnel transform color \"hsv\" # #define #if #endif /* */ // \n \\ \"".split(" "))


@given(st.lists(PIECES, max_size=60), st.booleans())
def test_broken_texts_are_told(pieces: list[str], framed: bool) -> None:
    text = " ".join(pieces)
    found, lines = brought("surface it(float x = 1;) { " + text + " }" if framed else text)
    assert (found.text == b"") == any(it.startswith("X ") for it in lines)


@given(st.binary(max_size=200))
def test_broken_bytes_are_told(data: bytes) -> None:
    changes = Changes("=~!")
    found = lower(b"surface it() { Ci = 1; " + data, "it.sl", (), {}, changes)
    assert (found.text == b"") == (changes.status() == 3)


def test_a_conversion_that_a_pass_puts_in_is_settled_at_once() -> None:
    text = b"surface it() { point PP = P; PP += noise(PP); Ci = color (xcomp(PP), 0, 0); Oi = 1; }"
    once = lower(text, "it.sl", (), {}, Changes("!")).text
    assert lower(once, "it.sl", (), {}, Changes("!")).text == once
