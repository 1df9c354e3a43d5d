"""Shadows by maps: small scenes whose shadows are known, and texts of all sorts."""
from __future__ import annotations

from pathlib import Path

import numpy as np
import pytest
from hypothesis import given
from hypothesis import strategies as st

import reyes
from reyes import command, picture, shader
from reyes import program as renderer
from reyes.errors import Trouble
from reyes.shadow import surfaces

# A ball over a floor, seen from above; the light comes down along z, a little from the left.
BALL = """Display "ball.ppm" "file" "rgb"
Format 48 48 1
PixelSamples 2 2
Projection "orthographic"
ScreenWindow -2 2 -2 2
Clipping 0.1 20
WorldBegin
LightSource "LIGHT" 1 "from" [-1 0 0] GIVEN
Surface "matte" "Ka" [0]
Patch "bilinear" "P" [-2 -2 4  2 -2 4  -2 2 4  2 2 4]
AttributeBegin
MORE
Translate 0 0 2
Sphere 0.5 -0.5 0.5 360
AttributeEnd
WorldEnd
"""


def drawn(folder: Path, text: str, *words: str) -> picture.Picture:
    """The scene's picture with shadows."""
    (folder / "ball.rib").write_text(text)
    assert command.run(["shadow", str(folder / "ball.rib"), "-o", str(folder / "out.png"), "-q", "--map", "256", *words]) == 0
    return picture.read(folder / "out.png").astype(int)


def scene(light: str = "distantlight", given_too: str = '"to" [0 0 2]', more: str = "") -> str:
    return BALL.replace("LIGHT", light).replace("GIVEN", given_too).replace("MORE", more)


# The ball's shadow on the floor by the distant light lies at x = 1, y = 0: in column 36 of row 24.
SHADE, OPEN = (24, 38), (24, 6)


@pytest.mark.parametrize("light, more", [("distantlight", '"to" [0 0 2]'), ("pointlight", '"intensity" [16]'), ("spotlight", '"to" [0 0 2] "intensity" [16] "coneangle" [1]')])
def test_a_ball_throws_a_shadow(program: Path, tmp_path: Path, light: str, more: str) -> None:
    plain = reyes.render(scene(light, more)).array.astype(int)
    shaded = drawn(tmp_path, scene(light, more))
    assert shaded[SHADE].max() < 8 < plain[SHADE].min()
    assert abs(shaded[OPEN] - plain[OPEN]).max() <= 1
    # what is seen from the light itself keeps its light: no shadow of a thing on itself
    assert abs(shaded[24, 22] - plain[24, 22]).max() <= 2


def test_glass_throws_a_lighter_one(program: Path, tmp_path: Path) -> None:
    shaded = drawn(tmp_path, scene(more="Opacity 0.5 0.5 0.5"))
    assert 0.15 < shaded[SHADE][0] / shaded[OPEN][0] < 0.6


@pytest.mark.parametrize("more, words", [('Attribute "visibility" "float transmission" [0]', ()), ('Surface "constant"', ()), ('Surface "plastic"', ("--no-cast", "plastic"))])
def test_marks_of_what_throws_none(program: Path, tmp_path: Path, more: str, words: tuple[str, ...]) -> None:
    shaded = drawn(tmp_path, scene(more=more), *words)
    assert abs(shaded[SHADE] - shaded[OPEN]).max() <= 2


def test_holes_of_ones_own_let_light_through(program: Path, tmp_path: Path) -> None:
    (tmp_path / "ring.sl").write_text("surface ring() { Oi = v > 0.35 && v < 0.65 ? 1 : 0; Ci = Oi; }")
    shaded = drawn(tmp_path, scene(more='Surface "ring"'))
    assert shaded[24, 36].min() > 100 and shaded[24, 41].max() < 60


def test_maps_are_kept_while_they_are_right(program: Path, tmp_path: Path) -> None:
    drawn(tmp_path, scene())
    kept = tmp_path / "out.png.shadows" / "light1.ppm"
    before = kept.stat().st_mtime_ns
    drawn(tmp_path, scene().replace('"Ka" [0]', '"Ka" [0.1]'))
    assert kept.stat().st_mtime_ns == before
    drawn(tmp_path, scene().replace("Translate 0 0 2", "Translate 0 0 2.1"))
    assert kept.stat().st_mtime_ns != before


@pytest.mark.parametrize("name", surfaces.STOCK)
def test_with_no_map_a_surface_is_the_stocks(program: Path, name: str) -> None:
    text = scene().replace('"matte"', f'"{name}"').replace('"Ka" [0]', "")
    made = surfaces.lit(surfaces.stock(name) or b"", name, 4)
    assert made is not None and made.left == 0
    given = reyes.render(text.replace(f'"{name}"', '"given"'), shaders={"given": made.text.decode()})
    assert (given.array == reyes.render(text).array).all()


def test_sums_that_stand_in_functions_are_told(program: Path) -> None:
    text = b"color f(normal n) { return diffuse(n); } surface s() { if (u > 0.5) Ci = diffuse(N); else Ci = diffuse(N); Oi = f(N); }"
    made = surfaces.lit(text, "s", 1)
    assert made is not None and made.left == 2


def test_a_scene_of_two_worlds_is_told(program: Path, tmp_path: Path, capsys: pytest.CaptureFixture[str]) -> None:
    (tmp_path / "two.rib").write_text(scene() + "WorldBegin WorldEnd\n")
    assert command.run(["shadow", str(tmp_path / "two.rib"), "-o", str(tmp_path / "o.png"), "-q"]) == 1
    assert capsys.readouterr().err.count("\n") == 1


@given(st.one_of(st.binary(max_size=80), st.text("surface{}();=,.diffuse specular(N)Oi", max_size=120).map(str.encode)))
def test_any_text_is_rewritten_or_told(text: bytes) -> None:
    for made in (lambda: surfaces.lit(text, "s", 2), lambda: surfaces.caster(text, "s"), lambda: surfaces.has_own_opacity(text, "s")):
        try:
            made()
        except Trouble as trouble:
            assert "\n" not in trouble.message


@given(st.text("abNOi(){},;=+ \n", max_size=60))
def test_what_is_rewritten_declares_the_same(body: str) -> None:
    text = f"surface s(float a = 1) {{ color c = diffuse(N); {body} }}".encode()
    if shader.declared(text) is None:
        return
    made = surfaces.lit(text, "s", 1)
    assert made is not None
    found = shader.declared(made.text)
    assert found is not None and found.parameters[0].name == "a" and found.parameters[-1].name == "shadow_thin1"
    assert np.diff([it.line for it in found.parameters]).min() >= 0


def test_the_folder_has_all_that_draws_the_picture_again(program: Path, tmp_path: Path) -> None:
    (tmp_path / "sun.sl").write_text("light sun() { solar(vector (1, 0, 2), 0) Cl = 0.8; }")
    (tmp_path / "spots").mkdir()
    (tmp_path / "spots" / "dots.ppm").write_bytes(b"P6 2 2 255\n" + bytes(range(12)))
    (tmp_path / "dots.sl").write_text('surface dots() { Oi = 1; Ci = color texture("spots/dots.ppm") + 0.1 * diffuse(N); }')
    text = scene("sun", "", 'Surface "dots"').replace('"from" [-1 0 0]', "")
    shaded = drawn(tmp_path, text)
    room = tmp_path / "out.png.shadows"
    assert renderer.run(["render", "scene.rib"], room).status == 0
    assert (picture.read(room / "ball.ppm").astype(int) == shaded).all()
    # what is changed outside is changed there
    (tmp_path / "sun.sl").write_text("light sun() { solar(vector (1, 0, 2), 0) Cl = 0; }")
    assert drawn(tmp_path, text)[OPEN].max() == 0
    # and a mirror finds it there
    words = ["mirror", str(room / "scene.rib"), "--floor", "lit_matte", "-o", str(tmp_path / "mirror.png"), "-q"]
    assert command.run(words) == 0
