"""What is told while a large scene is brought in."""
from pathlib import Path

import pytest

from reyes.bring import command, telling
from reyes.bring.text import requests

SPHERES = "Sphere 1 -1 1 360\n" * 8193


def test_a_line_is_told_every_ten_seconds(capsys: pytest.CaptureFixture[str]) -> None:
    times = iter([0.0, 1.0, 12.0, 12.0, 15.0, 30.0, 30.0, 41.0, 41.0])
    lines = telling.Lines(lambda: next(times))
    assert list(lines.through("bringing in", range(4000), 4000)) == list(range(4000))
    assert list(lines.through("reading a.rib", range(3))) == [0, 1, 2]
    told = ["bringing in: 1,024 of 4,000 requests, 25 %", "bringing in: 3,072 of 4,000 requests, 76 %", "reading a.rib: 0 requests"]
    assert capsys.readouterr().err.splitlines() == [f"reyes: {it}" for it in told]


@pytest.mark.parametrize("text, large", [
    (f"WorldBegin {SPHERES} WorldEnd", True), (f"WorldBegin {SPHERES[18:]} WorldEnd", False), (f"WorldBegin {SPHERES[180:]} WorldEnd " * 2, False),
    ('WorldBegin ' + 'Polygon "P" [0 0 0 1 0 0 1 1 0]\n' * 65537 + "WorldEnd", False), ("", False),
])
def test_what_is_too_large_is_told(text: str, large: bool) -> None:
    said = telling.too_large(requests(text.encode(), "a.rib"))
    assert said == ("a frame has 65,544 patches or more, and the renderer takes 65,536" if large else "")


def test_what_is_too_large_is_told_before_it_is_brought(tmp_path: Path, monkeypatch: pytest.MonkeyPatch, capsys: pytest.CaptureFixture[str]) -> None:
    scene = tmp_path / "a.rib"
    scene.write_text(f"WorldBegin {SPHERES} WorldEnd")
    monkeypatch.setattr(command, "brought_row", lambda *words: capsys.readouterr().err)
    assert command.bring(scene, "=", (), telling.Lines()) == f"reyes: {scene}: a frame has 65,544 patches or more, and the renderer takes 65,536\n"  # type: ignore[comparison-overlap]
