"""Every script prints its help for --help and -h, and does nothing else."""
import os
import subprocess
from pathlib import Path

import pytest

TOP = Path(__file__).resolve().parent.parent.parent
OTHERS = [TOP / "reyes", TOP / "why", *sorted((TOP / "docs/benchmarks").glob("*.py"))]
SCRIPTS = [it for it in sorted((TOP / "scripts").rglob("*")) if it.is_file() and os.access(it, os.X_OK) and "tests" not in it.parts]
# Commands that a script could do harm or lose time by: here they only tell that they were called.
TOOLS = ("rt", "git", "parallel", "sbatch", "make", "xdg-open", "valgrind", "apt-get", "tar", "cc")


@pytest.fixture
def watched(tmp_path: Path) -> tuple[Path, dict[str, str]]:
    """An empty folder to run in, and an environment in which each of the tools leaves a file when it is called."""
    tools, room = tmp_path / "tools", tmp_path / "room"
    tools.mkdir()
    room.mkdir()
    for name in TOOLS:
        (tools / name).write_text(f"#!/bin/sh\ntouch {tmp_path}/called-{name}\nexit 1\n")
        (tools / name).chmod(0o755)
    return room, {**os.environ, "PATH": f"{tools}:/usr/bin:/bin", "HOME": str(room), "TMPDIR": str(room)}


@pytest.mark.parametrize("word", ["--help", "-h"])
@pytest.mark.parametrize("path", [*SCRIPTS, *OTHERS], ids=lambda it: str(it.relative_to(TOP)))
def test_help_alone(path: Path, word: str, watched: tuple[Path, dict[str, str]], tmp_path: Path) -> None:
    room, environment = watched
    words = [path] if os.access(path, os.X_OK) else ["python3", path]
    ran = subprocess.run([*words, word], cwd=room, env=environment, stdin=subprocess.DEVNULL, capture_output=True, text=True, timeout=60)
    assert ran.returncode == 0, ran.stderr
    assert path.name in ran.stdout
    assert ran.stderr == ""
    assert list(room.iterdir()) == []
    assert list(tmp_path.glob("called-*")) == []


@pytest.mark.parametrize("path", SCRIPTS, ids=lambda it: it.name)
def test_a_word_that_is_none_is_told(path: Path, watched: tuple[Path, dict[str, str]], tmp_path: Path) -> None:
    room, environment = watched
    ran = subprocess.run([path, "--no-such-word"], cwd=room, env=environment, stdin=subprocess.DEVNULL, capture_output=True, text=True, timeout=60)
    assert ran.returncode != 0
    assert "Traceback" not in ran.stderr
    assert list(room.iterdir()) == []
    assert list(tmp_path.glob("called-*")) == []
