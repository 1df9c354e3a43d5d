"""The script for the documents' pictures, and the scripts that write scenes of examples/."""
from __future__ import annotations

import importlib.machinery
import importlib.util
import random
import subprocess
import sys
from pathlib import Path
from types import ModuleType

import png
import pytest

TOP = Path(__file__).resolve().parents[2]
SCRIPT = TOP / "scripts" / "pictures"


@pytest.fixture(scope="module")
def pictures() -> ModuleType:
    loader = importlib.machinery.SourceFileLoader("pictures", str(SCRIPT))
    spec = importlib.util.spec_from_loader("pictures", loader)
    assert spec
    module = importlib.util.module_from_spec(spec)
    keep, sys.dont_write_bytecode = sys.dont_write_bytecode, True
    try:
        loader.exec_module(module)
    finally:
        sys.dont_write_bytecode = keep
    return module


def rows_of(width: int, height: int) -> list[bytes]:
    """Rows with runs and noise, so that each filter is the best of some row."""
    hashed = random.Random(7)
    return [bytes((x * y + hashed.randrange(1 + 40 * (y % 3))) & 255 for x in range(3 * width)) for y in range(height)]


def test_a_picture_is_read_as_it_was_written(pictures: ModuleType, tmp_path: Path) -> None:
    rows = rows_of(37, 23)
    pictures.write_png(tmp_path / "a.png", 37, rows)
    assert pictures.read_png(tmp_path / "a.png") == (37, 23, rows)
    width, height, found, _ = png.Reader(filename=str(tmp_path / "a.png")).asDirect()
    assert (width, height, [bytes(it) for it in found]) == (37, 23, rows)


@pytest.mark.parametrize("filtering", range(5))
def test_each_filter_is_undone(pictures: ModuleType, filtering: int) -> None:
    above, row = rows_of(37, 2)
    guesses = {0: lambda x, y, z: 0, 1: lambda x, y, z: x, 2: lambda x, y, z: y, 3: lambda x, y, z: (x + y) // 2, 4: pictures.nearest}
    left, corner = bytes(3) + row[:-3], bytes(3) + above[:-3]
    packed = bytes((it - guesses[filtering](*near)) & 255 for it, *near in zip(row, left, above, corner))
    assert pictures.unfiltered(filtering, packed, above) == row


def test_squares_are_found_and_else_none(pictures: ModuleType) -> None:
    rows = rows_of(5, 4)
    large = [pictures.each_pixel(row, 3) for row in rows for _ in range(3)]
    assert pictures.reduced(large, 3) == rows
    assert pictures.reduced([*large[:-1], bytes(len(large[0]))], 3) is None
    assert pictures.reduced(large, 2) is None


@pytest.mark.parametrize("words, status", [(["--help"], 0), ([], 2), (["--other"], 2), (["missing.ppm"], 1)])
def test_words(words: list[str], status: int, tmp_path: Path) -> None:
    ran = subprocess.run([sys.executable, SCRIPT, *words], cwd=tmp_path, capture_output=True, text=True)
    assert ran.returncode == status
    assert ran.stdout.startswith("The pictures of the documents") == (words == ["--help"])
    assert "Traceback" not in ran.stderr


@pytest.mark.parametrize("name", ["landscape", "glass"])
def test_a_scene_is_what_its_script_writes(name: str) -> None:
    ran = subprocess.run([sys.executable, TOP / "examples" / f"{name}.py"], capture_output=True, check=True)
    assert ran.stdout == (TOP / "examples" / f"{name}.rib").read_bytes()
