"""The pictures of docs/LESSON.md are those that its code makes."""
import subprocess
import sys
from pathlib import Path

import numpy as np

from reyes import picture

CLONE = Path(__file__).resolve().parent.parent.parent


def test_the_pages_pictures(program: Path, tmp_path: Path) -> None:
    subprocess.run([sys.executable, CLONE / "scripts/lesson", tmp_path], check=True)
    made = sorted(it.name for it in tmp_path.iterdir())
    page = (CLONE / "docs/LESSON.md").read_text("utf-8")
    assert len(made) == 16 and made == sorted(it.name for it in (CLONE / "docs/pictures").glob("lesson_*"))
    for name in made:
        assert f"(pictures/{name})" in page
        assert np.array_equal(picture.read(tmp_path / name), picture.read(CLONE / "docs/pictures" / name)), name
