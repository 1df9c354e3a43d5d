"""Mirrors by a picture: a floor that shows what stands over it."""
from __future__ import annotations

from pathlib import Path

import numpy as np
import pytest

from reyes import command, picture
from reyes.errors import Trouble
from reyes.shadow import mirror

# A red ball over a black floor, seen from a little above; y is up.
BALL = """Display "ball.ppm" "file" "rgb"
Format 60 60 1
PixelSamples 2 2
Projection "perspective" "fov" [40]
Translate 0 -0.6 6
Rotate -10 1 0 0
WorldBegin
Color [0 0 0]
Surface "paint"
Patch "bilinear" "P" [-4 0 -4  4 0 -4  -4 0 8  4 0 8]
Color [1 0 0]
Surface "constant"
AttributeBegin
Translate 0 1 0
Sphere 0.5 -0.5 0.5 360
AttributeEnd
WorldEnd
"""


def drawn(folder: Path, text: str, *words: str) -> picture.Picture:
    (folder / "paint.sl").write_text("surface paint() { Oi = Os; Ci = Os * Cs; }")
    (folder / "ball.rib").write_text(text)
    assert command.run(["mirror", str(folder / "ball.rib"), "--floor", "paint", "-o", str(folder / "out.png"), "-q", *words]) == 0
    found: picture.Picture = picture.read(folder / "out.png").astype(int)
    return found


def test_the_ball_stands_on_its_image(program: Path, tmp_path: Path) -> None:
    red = drawn(tmp_path, BALL, "--strength", "1")[:, :, 0]
    rows = np.nonzero(red.max(axis=1) > 40)[0]
    assert (red == 255).any() and rows[-1] - rows[0] > 30
    image = red[rows[-1] - 4]
    assert 60 < image.max() < 250 and abs(int(np.mean(np.nonzero(image > 40))) - 30) <= 1


def test_a_wall_mirrors_as_a_floor_does(program: Path, tmp_path: Path) -> None:
    text = BALL.replace("[-4 0 -4  4 0 -4  -4 0 8  4 0 8]", "[1.2 -4 -4  1.2 4 -4  1.2 -4 8  1.2 4 8]")
    red = drawn(tmp_path, text, "--strength", "1")[:, :, 0]
    columns = np.nonzero(red.max(axis=0) > 40)[0]
    assert len(columns) and columns[-1] > 45


@pytest.mark.parametrize("old, new", [('Surface "paint"', 'Surface "matte"'), ('Patch "bilinear" "P" [-4 0 -4  4 0 -4  -4 0 8  4 0 8]', "Sphere 1 -1 1 360")])
def test_what_can_not_mirror_is_told(program: Path, tmp_path: Path, capsys: pytest.CaptureFixture[str], old: str, new: str) -> None:
    (tmp_path / "paint.sl").write_text("surface paint() { Oi = Os; Ci = Os * Cs; }")
    (tmp_path / "ball.rib").write_text(BALL.replace(old, new))
    assert command.run(["mirror", str(tmp_path / "ball.rib"), "--floor", "paint", "-o", str(tmp_path / "o.png"), "-q"]) == 2
    assert capsys.readouterr().err.count("\n") == 1


def test_planes() -> None:
    middle, normal = mirror.plane([np.array([[0, 2, 0], [1, 2, 0], [0, 2, 3.0]])], "it")
    assert middle[1] == 2 and abs(abs(normal[1]) - 1) < 1e-9
    with pytest.raises(Trouble):
        mirror.plane([], "it")


def test_what_is_mirrored_takes_the_place_of_so_much_of_the_floors_own_colour(program: Path, tmp_path: Path) -> None:
    drawn(tmp_path, BALL.replace("Color [0 0 0]", "Color [1 1 1]"), "--strength", "1")
    found = picture.read(tmp_path / "out.png").astype(int)
    below = found[40:]
    image = below[(below[:, :, 0] > 240) & (below[:, :, 1] < 200)]
    assert len(image) > 20 and image[:, 1].min() > 60
