"""Each row of docs/SHADERS_BROUGHT_IN.md: its example is changed with the sign that the page has, and the renderer accepts it."""
from __future__ import annotations

import re
from pathlib import Path

import pytest

from shading import accepted, brought

PAGE = Path(__file__).resolve().parent.parent.parent / "docs" / "SHADERS_BROUGHT_IN.md"
ROWS = [re.split(r" \| ", line.strip("| \n")) for line in PAGE.read_text().splitlines() if line.startswith("| ") and not line.startswith("| Form")]
CHANGED = [row for row in ROWS if len(row) == 4 and "`" in row[3]]
NEVER = [row for row in ROWS if len(row) == 2 and "`" in row[1]]
WHOLE = re.compile(r"(surface|displacement|light|volume|imager|void \w+|float \w+)\s*\w*\(")


def text(example: str) -> str:
    """An example as a whole shader."""
    code = example.strip("` ")
    if WHOLE.match(code):
        return code
    before = ""
    if code.startswith("#"):
        before, code = code + "\n", "f = SQR(u)"
    return f"{before}surface it() {{ color c = 1; float f = 0.5; point q = P; {code}; Ci = c * f + xcomp(q); Oi = 1; }}"


def test_the_page_has_rows() -> None:
    assert len(CHANGED) > 40 and len(NEVER) > 7


@pytest.mark.parametrize("row", CHANGED, ids=[row[3] for row in CHANGED])
def test_row(row: list[str], program: Path, tmp_path: Path) -> None:
    sign = row[2].strip("`")
    found, lines = brought(text(row[3]))
    assert lines and max(lines, key=lambda it: "=~!X".index(it[0]))[0] == sign, lines
    (tmp_path / "a.ppm").write_bytes(b"P6\n1 1\n255\n\x80\x80\x80")
    assert accepted(program, tmp_path, found.text, found.kind) == (), found.text.decode()
    again, more = brought(found.text.decode())
    assert again.text == found.text and more == []


@pytest.mark.parametrize("row", NEVER, ids=[row[1] for row in NEVER])
def test_refused_row(row: list[str]) -> None:
    found, lines = brought(text(row[1]))
    assert found.text == b"" and lines[-1].startswith("X ")
