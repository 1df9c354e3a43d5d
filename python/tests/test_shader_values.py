"""Formulas that stand for functions of the standard, beside Python's mathematics, at a thousand points each."""
from __future__ import annotations

import colorsys
import math
from collections.abc import Callable
from pathlib import Path

import numpy as np
import pytest

from shading import brought, values

# A shader's value at x, which is u from 0 to 1; what it has to be; and how near, as a part of the whole range.
FORMULAS: dict[str, tuple[str, Callable[[float], float], float]] = {
    "asin": ("0.5 + asin(2 * u - 1) / PI", lambda x: 0.5 + math.asin(2 * x - 1) / math.pi, 9e-5),
    "acos": ("acos(2 * u - 1) / PI", lambda x: math.acos(2 * x - 1) / math.pi, 9e-5),
    "atan of one": ("0.5 + atan(20 * u - 10) / PI", lambda x: 0.5 + math.atan(20 * x - 10) / math.pi, 5e-5),
    "atan of two": (
        "0.5 + atan(sin(6 * u - 3), cos(6 * u - 3)) / (2 * PI)", lambda x: 0.5 + (6 * x - 3) / (2 * math.pi), 1e-4),
    "atan of great numbers": ("atan(20000 * u, 9000) / PI", lambda x: math.atan2(20000 * x, 9000) / math.pi, 1e-4),
    "log to a base": ("log(1 + 7 * u, 2) / 4", lambda x: math.log2(1 + 7 * x) / 4, 3e-4),
    "pow of three": ("comp(pow(color(u, 1, 0), 2), 0)", lambda x: x * x, 1e-4),
    "more than three": ("max(0.1, u, 0.3, 0.4, 0.2)", lambda x: max(0.4, x), 2e-5),
    "a condition as a value": ("(u > 0.5) * 0.5", lambda x: 0.5 * (x > 0.5), 2e-5),
    "a number as a condition": ("floor(2 * u) ? 0.75 : 0.25", lambda x: 0.75 if math.floor(2 * x) else 0.25, 2e-5),
    "not of a number": ("!floor(2 * u) ? 0.75 : 0.25", lambda x: 0.25 if math.floor(2 * x) else 0.75, 2e-5),
    "ptlined": ("ptlined(point(0, 0, 0), point(0.5, 0, 0), point(u, 0.3, 0))", lambda x: math.hypot(max(0, x - 0.5), 0.3), 5e-5),
    "rotate": ("xcomp(rotate(point(u, 0, 0), PI / 3, point(0, 0, -1), point(0, 0, 4)))", lambda x: x * math.cos(math.pi / 3), 1e-4),
    "mod of colours": ("comp(mod(color(3 * u, 1, 1), color(0.5, 1, 1)), 0)", lambda x: math.fmod(3 * x, 0.5), 1e-4),
    "refract": (
        "0.5 + 0.5 * xcomp(refract(vector(sin(1.5 * u), 0, cos(1.5 * u)), normal(0, 0, -1), 0.75))",
        lambda x: 0.5 + 0.5 * 0.75 * math.sin(1.5 * x), 2e-4),
    "specularbrdf": (
        "specularbrdf(vector(sin(u), 0, cos(u)), normal(0, 0, 1), vector(0, 0, 1), 0.1)", lambda x: math.cos(x / 2) ** 10, 1e-3),
}


@pytest.mark.parametrize("name", FORMULAS)
def test_formula(name: str, program: Path, tmp_path: Path) -> None:
    text, formula, near = FORMULAS[name]
    found, _ = brought(f"surface it() {{ float f = {text}; Ci = color(u, f, 0); Oi = 1; }}")
    for level, value, _ in values(program, tmp_path, found.text):
        # u is a whole number of 65536ths, and the picture has 65535ths
        x = math.floor(level * 65536 + 0.49) / 65536
        assert abs(value - min(1.0, max(0.0, formula(x)))) <= near, (x, value, formula(x))


def fresnel(x: float) -> float:
    """How much is reflected at the angle 1.5 x, from the thinner into the denser medium."""
    c, eta = math.cos(1.5 * x), 1 / 1.5
    d = math.sqrt(1 - eta * eta * (1 - c * c))
    a, b = (eta * c - d) / (eta * c + d), (c - eta * d) / (c + eta * d)
    return (a * a + b * b) / 2


def test_fresnel(program: Path, tmp_path: Path) -> None:
    found, lines = brought("""surface it() {
        float Kr, Kt; vector R, T;
        fresnel(vector(sin(1.5 * u), 0, cos(1.5 * u)), normal(0, 0, -1), 1 / 1.5, Kr, Kt, R, T);
        Ci = color(u, Kr, 0.5 - 0.5 * zcomp(R)); Oi = 1; }""")
    assert lines == ["= it.sl:3: `fresnel` by Fresnel's equations"]
    for x, kr, z in values(program, tmp_path, found.text):
        assert abs(kr - fresnel(x)) < 1e-3 and abs(z - (0.5 + 0.5 * math.cos(1.5 * x))) < 1e-4


BASES = {
    "catmull-rom": [[-1, 3, -3, 1], [2, -5, 4, -1], [-1, 0, 1, 0], [0, 2, 0, 0]],
    "b-spline": [[-1, 3, -3, 1], [3, -6, 3, 0], [-3, 0, 3, 0], [1, 4, 1, 0]],
    "bezier": [[-1, 3, -3, 1], [3, -6, 3, 0], [-3, 3, 0, 0], [1, 0, 0, 0]],
    "hermite": [[2, 1, -2, 1], [-3, -2, 3, -1], [0, 1, 0, 0], [1, 0, 0, 0]],
    "linear": [[0, 0, 0, 0], [0, 0, 0, 0], [0, -1, 1, 0], [0, 1, 0, 0]],
}
SCALES = {"catmull-rom": 0.5, "b-spline": 1 / 6}
STEPS = {"bezier": 3, "hermite": 2}


def spline(basis: str, x: float, row: list[float]) -> float:
    """A spline by the matrix of its basis."""
    step = STEPS.get(basis, 1)
    pieces = (len(row) - 4) // step + 1
    piece = min(int(x * pieces), pieces - 1)
    f = x * pieces - piece
    weights = np.array([f ** 3, f * f, f, 1]) @ np.array(BASES[basis]) * SCALES.get(basis, 1)
    return float(weights @ np.array(row[piece * step:piece * step + 4]))


@pytest.mark.parametrize("basis", BASES)
def test_spline(basis: str, program: Path, tmp_path: Path) -> None:
    row = [0.1, 0.2, 0.9, 0.6, 0.3, 0.2, 0.5, 0.4, 0.7, 0.1] if basis in STEPS else [0.2, 0.1, 0.9, 0.6, 0.3, 0.35, 0.5]
    numbers = ", ".join(map(str, row))
    found, _ = brought(f"""surface it() {{
        float knots[{len(row)}] = {{ {numbers} }};
        color c = spline("{basis}", u, {", ".join(f"color({it}, 0, 1)" for it in row)});
        Ci = color(u, spline("{basis}", u, knots), comp(c, 0)); Oi = 1; }}""")
    for x, one, other in values(program, tmp_path, found.text):
        assert one == other and abs(one - min(1.0, max(0.0, spline(basis, x, row)))) < 3e-4


@pytest.mark.parametrize("space, made", [("hsv", colorsys.hsv_to_rgb), ("hsl", lambda h, s, l: colorsys.hls_to_rgb(h, l, s))])
def test_colour_spaces(space: str, made: Callable[..., tuple[float, float, float]], program: Path, tmp_path: Path) -> None:
    for channel in range(3):
        found, _ = brought(f"""surface it() {{
            color c = color "{space}" (u, 0.8, 0.6);
            color back = ctransform("rgb", "{space}", c);
            Ci = color(u, comp(c, {channel}), abs(comp(back, 1) - 0.8)); Oi = 1; }}""")
        for x, value, error in values(program, tmp_path, found.text):
            assert abs(value - made(x, 0.8, 0.6)[channel]) < 3e-4 and error < 2e-3


def test_yiq_comes_back(program: Path, tmp_path: Path) -> None:
    found, _ = brought("""surface it() {
        color c = color(u, 0.3, 0.7);
        color back = ctransform("YIQ", "rgb", ctransform("YIQ", c));
        Ci = color(u, comp(back, 0), comp(ctransform("YIQ", c), 0)); Oi = 1; }""")
    for x, back, luma in values(program, tmp_path, found.text):
        assert abs(back - x) < 2e-3 and abs(luma - (0.299 * x + 0.587 * 0.3 + 0.114 * 0.7)) < 2e-4


def test_noise_of_cells_is_even_and_steady(program: Path, tmp_path: Path) -> None:
    found, _ = brought("surface it() { Ci = color(cellnoise(8 * u, 8 * v), cellnoise(floor(8 * u), floor(8 * v)), cellnoise(16 * P)); Oi = 1; }")
    rows = values(program, tmp_path, found.text)
    assert np.array_equal(rows[:, 0], rows[:, 1]) and len(set(rows[:, 0])) <= 81
    assert 0.3 < rows[:, 2].mean() < 0.7 and rows[:, 2].std() > 0.2


def test_noise_of_three_values(program: Path, tmp_path: Path) -> None:
    found, lines = brought("surface it() { color c = noise(9 * P); vector w = noise(9 * P); Ci = mix(c, color w, 0.5) ; Oi = 1; }")
    assert any("noise of three values" in it for it in lines)
    rows = values(program, tmp_path, found.text)
    assert all(abs(np.corrcoef(rows[:, one], rows[:, other])[0, 1]) < 0.3 for one, other in ((0, 1), (0, 2), (1, 2)))
    single, _ = brought("surface it() { Ci = color(noise(9 * P), 0, 0); Oi = 1; }")
    assert np.max(np.abs(values(program, tmp_path, single.text)[:, 0] - rows[:, 0])) < 1e-4
