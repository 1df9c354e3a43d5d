"""Which program is run: what REYES names, in a clone what its launcher would run, else the one on the path."""
from pathlib import Path

import pytest

from reyes import program
from reyes.errors import Trouble


def script(path: Path, text: str) -> Path:
    path.parent.mkdir(parents=True, exist_ok=True)
    path.write_text(f"#!/bin/sh\n{text}\n")
    path.chmod(0o755)
    return path


@pytest.fixture
def clone(tmp_path: Path, monkeypatch: pytest.MonkeyPatch) -> Path:
    """A clone whose launcher would run the program `chosen` in it."""
    monkeypatch.delenv("REYES", raising=False)
    monkeypatch.setattr(program, "CLONE", tmp_path)
    script(tmp_path / "reyes", f'[ "$1" = --program ] && echo "{tmp_path}/chosen"')
    (tmp_path / "crates.txt").write_text("")
    program._of_clone.cache_clear()
    return tmp_path


def test_what_reyes_names(tmp_path: Path, monkeypatch: pytest.MonkeyPatch) -> None:
    named = script(tmp_path / "mine", "")
    monkeypatch.setenv("REYES", str(named))
    assert program.ready() == named
    monkeypatch.setenv("REYES", str(tmp_path / "none"))
    with pytest.raises(Trouble, match="REYES names it"):
        program.ready()


def test_in_a_clone_what_its_launcher_runs(clone: Path) -> None:
    script(clone / "crates/reyes/out/reyes", "")
    assert program.ready() == clone / "chosen"


def test_in_a_release_the_program_beside_the_package(clone: Path) -> None:
    (clone / "crates.txt").unlink()
    assert program.ready() == clone / "reyes"


def test_a_program_that_can_not_be_built(clone: Path) -> None:
    script(clone / "reyes", "exit 1")
    with pytest.raises(Trouble, match="isn't built"):
        program.ready()


def test_the_program_on_the_path(tmp_path: Path, monkeypatch: pytest.MonkeyPatch) -> None:
    monkeypatch.delenv("REYES", raising=False)
    monkeypatch.setattr(program, "CLONE", tmp_path / "nowhere")
    monkeypatch.setenv("PATH", str(tmp_path))
    with pytest.raises(Trouble, match="on the path"):
        program.ready()
    script(tmp_path / "reyes", "")
    assert program.ready() == tmp_path / "reyes"


def test_a_run_gives_status_and_notes(tmp_path: Path) -> None:
    found = program.run(["check"], tmp_path, script(tmp_path / "it", "echo a note >&2; exit 3"))
    assert (found.status, found.notes) == (3, ("a note",))
    with pytest.raises(Trouble):
        program.run([], tmp_path, tmp_path / "none")
