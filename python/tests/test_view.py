"""`view`: a picture in another form, or in the desktop's viewer."""
from pathlib import Path

import numpy as np
import pytest

from reyes import command, picture

PPM = b"P6\n# by hand\n2 1\n65535\n" + bytes([0, 1, 0, 2, 0, 3, 255, 255, 1, 0, 0, 0])


def test_ppm_to_png(tmp_path: Path) -> None:
    (tmp_path / "a b.ppm").write_bytes(PPM)
    assert command.run(["view", str(tmp_path / "a b.ppm"), "--side", "2", "-o", ".png"]) == 0
    assert np.array_equal(picture.read(tmp_path / "a b.png"), picture.larger(picture.from_ppm(PPM), 2))


def test_without_a_viewer_the_path_is_shown(tmp_path: Path, monkeypatch: pytest.MonkeyPatch, capsys: pytest.CaptureFixture[str]) -> None:
    monkeypatch.setenv("PATH", str(tmp_path))
    monkeypatch.setattr("tempfile.mkdtemp", lambda prefix: str(tmp_path))
    (tmp_path / "a.ppm").write_bytes(PPM)
    assert command.run(["view", str(tmp_path / "a.ppm")]) == 0
    assert picture.read(capsys.readouterr().out.strip()).shape == (1, 2, 3)


@pytest.mark.parametrize("data, said", [(b"P6\n4 4\n255\nabc", "some of its rows are missing"), (b"nothing", "no picture"), (b"P6", "its header")])
def test_what_is_no_picture(data: bytes, said: str, tmp_path: Path, capsys: pytest.CaptureFixture[str]) -> None:
    (tmp_path / "a.ppm").write_bytes(data)
    assert command.run(["view", str(tmp_path / "a.ppm"), "-o", "b.png"]) == 3
    assert said in capsys.readouterr().err
    assert command.run(["view", str(tmp_path / "none.ppm")]) == 6
