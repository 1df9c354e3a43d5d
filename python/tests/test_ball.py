"""Bent mirrors: a ball that shows what stands around it."""
from __future__ import annotations

from pathlib import Path

import numpy as np
import pytest

from reyes import command, picture
from reyes.shadow import ball

# A ball between a red wall at the left and a green one at the right; y is up, and the camera looks along z.
BALL = """Display "ball.ppm" "file" "rgb"
Format 40 40 1
PixelSamples 2 2
Projection "perspective" "fov" [40]
Translate 0 0 5
WorldBegin
LightSource "ambientlight" 1
Surface "constant"
Color [1 0 0]
Patch "bilinear" "P" [-3 -9 -9  -3 9 -9  -3 -9 9  -3 9 9]
Color [0 1 0]
Patch "bilinear" "P" [3 -9 -9  3 9 -9  3 -9 9  3 9 9]
Color [0 0 0]
Surface "metal"
Sphere 1 -1 1 360
WorldEnd
"""


def test_a_ball_shows_what_stands_on_both_sides(program: Path, tmp_path: Path) -> None:
    (tmp_path / "ball.rib").write_text(BALL)
    words = ["mirror", str(tmp_path / "ball.rib"), "--ball", "metal", "--strength", "1", "-o", str(tmp_path / "out.png"), "-q"]
    assert command.run(words) == 0
    drawn = picture.read(tmp_path / "out.png").astype(int)
    left, right = drawn[20, 15], drawn[20, 24]
    assert left[0] > 200 and left[1] < 40 and right[1] > 200 and right[0] < 40


def test_a_map_has_each_view_where_a_ball_shows_it() -> None:
    views = [np.full((ball.SIDE, ball.SIDE, 3), at, np.uint16) for at in range(6)]
    found = ball.laid_out(views)[:, :, 0]
    middle = ball.SIDE // 2
    # towards the eye in the middle, ahead at the rim, and right, left, up and down between
    assert found[middle, middle] == 1 and found[middle, -1] == 0 and found[0, 0] == 0
    assert [int(found[middle, int(middle * part)]) for part in (1.7, 0.3)] == [2, 3]
    assert [int(found[int(middle * part), middle]) for part in (0.3, 1.7)] == [4, 5]


def test_nothing_that_wears_it_is_told(program: Path, tmp_path: Path, capsys: pytest.CaptureFixture[str]) -> None:
    (tmp_path / "ball.rib").write_text(BALL)
    assert command.run(["mirror", str(tmp_path / "ball.rib"), "--ball", "plastic", "-o", str(tmp_path / "o.png"), "-q"]) == 2
    assert capsys.readouterr().err.count("\n") == 1
