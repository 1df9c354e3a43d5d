"""The sums of sources, and when a proved program is of these sources."""
import os
import shutil
import subprocess
import sys
from pathlib import Path

import pytest

ASK = "import clone, sys; print(clone.sources_sum('a', clone.PROGRAM_PARTS), clone.sources_sum('a', clone.PROVED_PARTS), clone.proved('a') is not None)"


@pytest.fixture
def room(top: Path, tmp_path: Path) -> Path:
    """A repository of a program over a library."""
    (tmp_path / "scripts").mkdir()
    shutil.copy(top / "scripts/clone.py", tmp_path / "scripts")
    (tmp_path / "crates.txt").write_text("# programs\na: b bumpalo\nb:\n")
    for name, part in (("a", "src"), ("b", "src"), ("b", "proofs")):
        (tmp_path / "crates" / name / part).mkdir(parents=True)
        (tmp_path / "crates" / name / part / "file").write_text("text\n")
    return tmp_path


def asked(room: Path) -> tuple[str, str, bool]:
    """The sum of the sources, that of the proof's, and whether there is a proved program of them."""
    ran = subprocess.run([sys.executable, "-B", "-c", ASK], cwd=room / "scripts", capture_output=True, text=True, check=True)
    program, proof, is_there = ran.stdout.split()
    return program, proof, is_there == "True"


def put_program(room: Path) -> None:
    (room / "crates/a/out").mkdir(exist_ok=True)
    (room / "crates/a/out/a").write_text("program\n")
    (room / "crates/a/out/a").chmod(0o755)


def test_a_change_below_changes_the_sum(room: Path) -> None:
    before = asked(room)
    (room / "crates/b/src/file").write_text("other\n")
    after = asked(room)
    assert before[0] != after[0] and before[1] != after[1]


def test_a_proof_is_no_part_of_the_program(room: Path) -> None:
    before = asked(room)
    (room / "crates/b/proofs/file").write_text("other\n")
    after = asked(room)
    assert before[0] == after[0] and before[1] != after[1]


def test_what_stands_in_out_is_no_source(room: Path) -> None:
    before = asked(room)
    put_program(room)
    assert asked(room)[:2] == before[:2]


def test_a_program_without_a_record_has_to_be_younger_than_its_sources(room: Path) -> None:
    assert not asked(room)[2]
    put_program(room)
    assert asked(room)[2]
    late = os.stat(room / "crates/a/out/a").st_mtime + 5
    os.utime(room / "crates/b/proofs/file", (late, late))
    assert not asked(room)[2]


def test_a_record_says_of_which_sources_a_program_is(room: Path) -> None:
    put_program(room)
    (room / "crates/a/out/a.sources").write_text(asked(room)[1] + "\n")
    late = os.stat(room / "crates/a/out/a").st_mtime + 5
    os.utime(room / "crates/b/src/file", (late, late))
    assert asked(room)[2]
    (room / "crates/b/src/file").write_text("other\n")
    assert not asked(room)[2]


def test_a_record_of_an_older_program_counts_for_nothing(room: Path) -> None:
    (room / "crates/a/out").mkdir()
    (room / "crates/a/out/a.sources").write_text("of another program\n")
    os.utime(room / "crates/a/out/a.sources", (1, 1))
    put_program(room)
    assert asked(room)[2]
