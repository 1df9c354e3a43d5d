"""Each row of docs/EXPORTERS.md's table: what it says is written is brought in with a change of its kind, and the renderer takes it."""
import re

import pytest
from bringing import bring
from conftest import CLONE

from reyes import program as renderer

ROW = re.compile(r"\| `(.+?)` \| `([=~!])` \| .+ \|$", re.M)
OPTIONS = ("Display", "Quantize", "PixelFilter", "PixelSamples", "Format", "Clipping", "Projection", "DepthOfField", "Imager")
ROWS = ROW.findall((CLONE / "docs/EXPORTERS.md").read_text(encoding="utf-8"))


def test_the_table_is_found():
    assert len(ROWS) > 60 and "Shutter 0 1" in dict(ROWS)


@pytest.mark.parametrize("written,kind", ROWS, ids=[it[:40] for it, _ in ROWS])
def test_a_row(program, tmp_path, written, kind):
    option = written.split()[0] in OPTIONS
    size = "" if written.startswith("Format") else "Format 24 18 1\n"
    before, inside = (f"{written}\n", "") if option else ("", f"{written}\n")
    answer = bring(tmp_path, f"{size}{before}WorldBegin\n{inside}Translate 0 0 5\nSphere 1 -1 1 360\nWorldEnd\n")
    assert max(answer.kinds(), key="=~!X".index) == kind, answer.changes.lines()
    checked = renderer.run(["check", "scene.rib"], answer.folder)
    assert checked.status == 0, (checked.notes, answer.text)
