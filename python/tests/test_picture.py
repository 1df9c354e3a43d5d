"""Pictures are read and written without a level lost, and broken ones are told in a line."""
from pathlib import Path

import numpy as np
import pytest
from hypothesis import given
from hypothesis import strategies as st

from reyes import picture
from reyes.errors import Trouble


def gradient(channels: int, kind: type) -> picture.Picture:
    most = np.iinfo(kind).max
    return (np.arange(5 * 7 * channels).reshape(5, 7, channels) * (most // 200)).astype(kind)


@pytest.mark.parametrize("kind", [np.uint8, np.uint16])
@pytest.mark.parametrize("name, channels", [("a.ppm", 3), ("a.png", 1), ("a.png", 2), ("a.png", 3), ("a.png", 4), ("a.tif", 4), ("a.exr", 4)])
def test_what_is_written_is_read_back(tmp_path: Path, name: str, channels: int, kind: type) -> None:
    if name.endswith((".tif", ".exr")):
        pytest.importorskip("OpenImageIO")
    whole = gradient(channels, kind)
    picture.write(tmp_path / name, whole)
    found = picture.read(tmp_path / name)
    if name.endswith(".exr") and kind is np.uint8:
        found = (found // 257).astype(np.uint8)
    assert found.dtype == whole.dtype and np.array_equal(found, whole)
    assert [it.name for it in tmp_path.iterdir()] == [name]


def test_a_header_with_comments_and_another_greatest_level() -> None:
    found = picture.from_ppm(b"P6# by\n#two\n2\t1 #\n 15\n" + bytes([0, 15, 20, 1, 2, 3]))
    assert found.tolist() == [[[0, 255, 255], [17, 34, 51]]] and found.dtype == np.uint8


def test_layers_have_names(tmp_path: Path) -> None:
    oiio = pytest.importorskip("OpenImageIO")
    picture.write_layers(tmp_path / "a.exr", {"": gradient(4, np.uint8), "depth": gradient(1, np.uint16)})
    assert sorted(oiio.ImageInput.open(str(tmp_path / "a.exr")).spec().channelnames) == ["A", "B", "G", "R", "depth.Y"]


@given(st.integers(1, 5), st.integers(1, 5), st.booleans(), st.data())
def test_ppm_of_any_size(width: int, height: int, wide: bool, data: st.DataObject) -> None:
    raw = data.draw(st.binary(min_size=3 * width * height * (1 + wide), max_size=3 * width * height * (1 + wide)))
    text = f"P6\n{width} {height}\n{65535 if wide else 255}\n".encode() + raw
    assert picture.to_ppm(picture.from_ppm(text)) == text


BROKEN = st.binary(max_size=60) | st.builds(
    lambda head, cut, tail: head[:cut] + tail, st.sampled_from([b"P6\n3 2\n255\n" + bytes(18), picture.to_png(np.zeros((3, 4, 3), np.uint8))]),
    st.integers(0, 100), st.binary(max_size=12),
)


@given(BROKEN)
def test_broken_pictures_are_told_in_a_line(tmp_path: Path, data: bytes) -> None:
    path = tmp_path / "broken.ppm"
    path.write_bytes(data)
    try:
        assert picture.read(path).ndim == 3
    except Trouble as trouble:
        assert "\n" not in trouble.message and trouble.status in (1, 3)


def test_files_that_are_not_there(tmp_path: Path) -> None:
    with pytest.raises(Trouble, match="none.ppm: missing"):
        picture.read(tmp_path / "none.ppm")
    with pytest.raises(Trouble, match="its folder: missing"):
        picture.write(tmp_path / "none" / "a.png", gradient(3, np.uint8))
    with pytest.raises(Trouble, match="ends with one of"):
        picture.write(tmp_path / "a.gif", gradient(3, np.uint8))
