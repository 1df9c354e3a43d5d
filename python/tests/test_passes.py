"""Passes: what each shows, by scenes whose pictures are known."""
from __future__ import annotations

from pathlib import Path

import numpy as np
import pytest
from hypothesis import given
from hypothesis import strategies as st

from reyes import command, passing, picture, rib, shader
from reyes.errors import Trouble

HALF = """Display "half.ppm" "file" "rgb"
Format 16 12 1
PixelSamples 3 3
Projection "orthographic"
ScreenWindow -2 2 -1.5 1.5
Clipping 1 9
WorldBegin
Color [1 1 1]
Surface "constant"
Opacity [0.5 0.5 0.5]
Patch "bilinear" "P" [-1 -1 3  0.3 -1 3  -1 1 3  0.3 1 3]
Opacity [1 1 1]
Polygon "P" [0 0 5  2 0 5  2 1.5 5  0 1.5 5]
WorldEnd
"""


def passes(folder: Path, text: str, *words: str) -> int:
    """The status of the command over a scene."""
    (folder / "scene.rib").write_text(text)
    return command.run(["passes", str(folder / "scene.rib"), "-q", *words])


def test_alpha_is_the_picture_of_the_scene_in_white(program: Path, tmp_path: Path) -> None:
    assert passes(tmp_path, HALF, "--alpha", "-o", str(tmp_path / "a.tif")) == 0
    got = picture.read(tmp_path / "a.tif")
    assert got.shape == (12, 16, 4) and got.dtype == np.uint16
    # surfaces of colour 1 have colours equal to their opacity, so the renderer's own sums are the alpha
    assert (got[:, :, 3] == got[:, :, 0]).all()
    assert set(np.unique(got[5:7, 6:7, 3])) == {32768} and got[11, 0, 3] == 0


def test_png_has_colours_that_alpha_does_not_darken(program: Path, tmp_path: Path) -> None:
    assert passes(tmp_path, HALF, "--alpha", "-o", str(tmp_path / "a.png")) == 0
    got = picture.read(tmp_path / "a.png")
    assert (got[got[:, :, 3] > 0][:, :3] == 65535).all()


def test_depth_goes_from_near_to_far_and_glass_counts(program: Path, tmp_path: Path) -> None:
    assert passes(tmp_path, HALF, "--depth", "-o", str(tmp_path / "d.png")) == 0
    depth = picture.read(tmp_path / "d.depth.png")[:, :, 0].astype(float) / 65535
    assert abs(depth[9, 6] - 2 / 8) < 0.001 and abs(depth[2, 14] - 4 / 8) < 0.001 and depth[11, 15] == 1


def test_ids_differ_and_are_not_mixed(program: Path, tmp_path: Path) -> None:
    assert passes(tmp_path, HALF, "--ids", "-o", str(tmp_path / "i.png")) == 0
    ids = picture.read(tmp_path / "i.ids.png").reshape(-1, 3)
    assert len(np.unique(ids, axis=0)) == 3


def test_uv_and_cells_and_normals(program: Path, tmp_path: Path) -> None:
    assert passes(tmp_path, HALF, "--uv", "--cells", "--normals", "-o", str(tmp_path / "u.png")) == 0
    uv = picture.read(tmp_path / "u.uv.png")
    assert uv[6, 4, 0] < uv[6, 8, 0] and uv[4, 6, 1] > uv[8, 6, 1]
    assert len(np.unique(picture.read(tmp_path / "u.cells.png").reshape(-1, 3), axis=0)) > 20
    assert abs(int(picture.read(tmp_path / "u.normals.png")[6, 6, 0]) - 32768) < 4


def test_layers_of_one_exr(program: Path, tmp_path: Path) -> None:
    oiio = pytest.importorskip("OpenImageIO")
    assert passes(tmp_path, HALF, "--alpha", "--depth", "-o", str(tmp_path / "a.exr")) == 0
    assert oiio.ImageInput.open(str(tmp_path / "a.exr")).spec().channelnames == ("R", "G", "B", "A", "depth.Y")


def test_a_surface_of_ones_own_keeps_its_holes(program: Path, tmp_path: Path) -> None:
    (tmp_path / "holes.sl").write_text("surface holes(float most = 1;) { Oi = u < 0.5 ? 0 : most; Ci = Oi; }")
    text = HALF.replace('Surface "constant"', 'Surface "holes" "float most" [1]')
    assert passes(tmp_path, text, "--alpha", "--ids", "-o", str(tmp_path / "a.tif")) == 0
    alpha = picture.read(tmp_path / "a.tif")[:, :, 3]
    assert alpha[6, 4] == 0 and alpha[6, 8] > 50000
    assert not picture.read(tmp_path / "a.ids.tif")[6, 4].any()


@pytest.mark.parametrize("words", [("-o", "a.png"), ("--alpha", "-o", "a.ppm"), ("--alpha", "-o", "a")])
def test_words_that_ask_for_nothing(tmp_path: Path, words: tuple[str, ...], capsys: pytest.CaptureFixture[str]) -> None:
    assert passes(tmp_path, HALF, *words) == 2
    assert capsys.readouterr().err.count("\n") == 1


@given(st.binary(max_size=120), st.sampled_from(["colour", *passing.PASSES]))
def test_any_text_is_changed_or_told(data: bytes, wanted: str) -> None:
    changed = passing.changed(data, "scene", None, (), wanted)
    assert changed.data.count(b"\n") == data.count(b"\n")
    assert all(shader.declared(it) is not None for it in changed.shaders.values())


@given(st.binary(max_size=120), st.sampled_from(list(passing.PASSES)))
def test_any_shader_is_changed_or_told(text: bytes, wanted: str) -> None:
    try:
        passing.with_ending(text, wanted, "it")
    except Trouble as trouble:
        assert "\n" not in trouble.message


def test_lines_stay(tmp_path: Path) -> None:
    text = b'Quantize "rgb" 255\n 0 255 0\nAtmosphere "fog" # gone\nWorldBegin\nSphere 1 -1 1 360\nWorldEnd\n'
    for wanted in passing.PASSES:
        found = {it.name: it.line for it in rib.requests(passing.changed(text, "scene", None, (), wanted).data)}
        assert found["WorldBegin"] == 4 and found["Sphere"] == 5
