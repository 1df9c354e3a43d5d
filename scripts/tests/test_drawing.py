"""Which scenes are drawn, and how their pictures are compared with the stored sums."""
import os
from pathlib import Path

import pytest

import drawing
from clone import Trouble


def test_scenes_that_are_refused_are_not_drawn() -> None:
    found = drawing.scenes()
    assert "first.rib" in found and "exporters/geomview.rib" in found
    assert not set(drawing.REFUSED) & set(found)


def test_pictures_are_compared_with_their_sums(monkeypatch: pytest.MonkeyPatch) -> None:
    monkeypatch.setattr(drawing, "TEXTURES", ())
    monkeypatch.setattr(drawing, "scenes", lambda: ["a.rib", "b.rib"])
    monkeypatch.setattr(drawing, "stored", lambda: {"a.ppm": "1", "b.ppm": "2", "gone.ppm": "3"})
    monkeypatch.setattr(drawing, "all_drawn", lambda names, told: {it.replace("rib", "ppm"): "1" for it in names} | {"new.ppm": "4"})
    assert drawing.compared(["a.rib"]) == [("a.ppm", True), ("new.ppm", False)]
    assert drawing.compared(["a.rib", "b.rib"]) == [("a.ppm", True), ("b.ppm", False), ("new.ppm", False), ("gone.ppm", False)]


def test_a_scene_is_drawn_in_a_folder_of_its_own(monkeypatch: pytest.MonkeyPatch, tmp_path: Path) -> None:
    program = tmp_path / "program"
    program.write_text("#!/bin/sh\n[ $1 = render ] && [ -f $2 ] && ls *.sl > /dev/null && printf a > ${2%.rib}.ppm\n")
    program.chmod(0o755)
    monkeypatch.setenv("REYES", os.fspath(program))
    found = drawing.drawn("first.rib")
    assert found == {"first.ppm": "ca978112ca1bbdcafac231b39a23dc4da786eff8147c4e72b9807785afee48bb"}


def test_a_scene_that_is_not_drawn_is_told(monkeypatch: pytest.MonkeyPatch, tmp_path: Path) -> None:
    program = tmp_path / "program"
    program.write_text("#!/bin/sh\necho first.rib:3: G5 >&2\nexit 5\n")
    program.chmod(0o755)
    monkeypatch.setenv("REYES", os.fspath(program))
    with pytest.raises(Trouble, match="first.rib: status 5: first.rib:3: G5"):
        drawing.drawn("first.rib")


def test_readmes_shadows_are_drawn_by_the_words_that_it_shows(monkeypatch: pytest.MonkeyPatch, tmp_path: Path, top: Path) -> None:
    package = tmp_path / "python"
    package.write_text("#!/bin/sh\nshift; for it; do last=$it; done; printf '%s' \"$*\" > $last; [ $1 = shadow ]\n")
    package.chmod(0o755)
    monkeypatch.setenv("REYES", os.fspath(package))
    monkeypatch.setattr(drawing.libraries, "python", lambda: os.fspath(package))
    for name, words in drawing.SHADOWED.items():
        assert f"pictures/{name.replace('.ppm', '.png')}" in (top / "README.md").read_text()
        assert f"{words} -o" in (top / "README.md").read_text() and f"{words} -o" in (top / "docs/SHADOWS.md").read_text()
        monkeypatch.setattr(drawing, "sum_of", lambda path: path.read_text())
        assert drawing.shadowed(name).startswith(f"{words} -j 1 --bucket 64")
        assert name in drawing.stored()
    monkeypatch.setitem(drawing.SHADOWED, "other.ppm", "mirror examples/room.rib")
    with pytest.raises(Trouble, match="other.ppm: status 1"):
        drawing.shadowed("other.ppm")
