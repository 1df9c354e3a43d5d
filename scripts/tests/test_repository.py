"""What else has to hold of the repository: what its commands leave is ignored, and editors read every note."""
import json
import os
import re
import subprocess
from pathlib import Path

import pytest

import drawing

SCRIPTS = ("build", "cases", "check", "check_examples", "quick", "release", "test")


def left_by_examples(top: Path) -> list[str]:
    """The pictures that the examples draw, in their folder and at the top."""
    named = (line.split()[1] for line in (top / "examples/SHA256SUMS").read_text().splitlines())
    return [f"{folder}{it}" for it in named if "/" not in it for folder in ("", "examples/")]


@pytest.mark.parametrize("name", ["demo.ppm", "tea.ppm.3.part", "examples/tea.ppm.3.part", "examples/tea.png", "examples/tea.farm/list", "brought/scene.rib", "reyes.1", "crates/reyes/out/quick/0", "dist/SHA256SUMS"])
def test_what_the_documents_commands_leave_is_ignored(top: Path, name: str) -> None:
    assert subprocess.run(["git", "-C", top, "check-ignore", "-q", "--no-index", name]).returncode == 0


def test_what_the_examples_draw_is_ignored(top: Path) -> None:
    names = left_by_examples(top)
    assert "examples/tea.ppm" in names
    ran = subprocess.run(["git", "-C", top, "check-ignore", "--no-index", *names], capture_output=True, text=True)
    assert [it for it in names if it not in ran.stdout.splitlines()] == []


@pytest.mark.parametrize(
    "note, found",
    [
        ("scene.rib:12: G5", {"file": "scene.rib", "line": "12", "message": "G5"}),
        ("wood.sl:4: T1", {"file": "wood.sl", "line": "4", "message": "T1"}),
        ("wood.sl: missing", {"file": "wood.sl", "message": "missing"}),
        ("reyes: this program is unproved; scripts/build proves it", None),
        ("no memory", None),
    ],
)
def test_the_editor_reads_each_note(top: Path, note: str, found: dict[str, str] | None) -> None:
    task = json.loads((top / "editors/vscode/tasks.json").read_text())["tasks"][0]
    patterns = [it["pattern"] for it in task["problemMatcher"]]
    fits = [(it, re.search(it["regexp"], note)) for it in patterns]
    read = [{name: fit[it[name]] for name in ("file", "line", "message") if name in it} for it, fit in fits if fit]
    assert read == ([found] if found else [])


def test_each_package_is_named_with_its_module(top: Path) -> None:
    lines = [it for it in (top / "scripts/packages.txt").read_text().splitlines() if not it.startswith("#")]
    assert all(re.fullmatch(r"python3-[a-z0-9]+ \w+", it) for it in lines)


@pytest.mark.parametrize("name", ["reyes", "why", *(f"scripts/{it}" for it in SCRIPTS)])
def test_types(top: Path, tmp_path: Path, name: str) -> None:
    mypy = pytest.importorskip("mypy.api")
    os.environ["MYPYPATH"] = f"{top}/scripts:{top}/python"
    said, fault, status = mypy.run(["--strict", "--cache-dir", str(tmp_path.parent / "types"), str(top / name)])
    assert status == 0, said + fault


def test_the_textures_of_the_examples_are_in_the_repository(top: Path) -> None:
    """Pictures are ignored, so one that belongs to the repository is easily forgotten."""
    textures = [f"examples/{it}" for it in drawing.TEXTURES]
    assert subprocess.run(["git", "-C", top, "ls-files", *textures], capture_output=True, text=True).stdout.split() == sorted(textures)
