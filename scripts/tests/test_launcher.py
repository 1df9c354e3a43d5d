"""Which programs ./reyes and ./why run, and what they say of them."""
import os
import shutil
import subprocess
from pathlib import Path

import pytest

TOP = Path(__file__).resolve().parent.parent.parent
SAYS = "#!/bin/sh\necho {name} \"$@\"\n"


def put(path: Path, text: str) -> None:
    path.parent.mkdir(parents=True, exist_ok=True)
    path.write_text(text)
    path.chmod(0o755)


@pytest.fixture
def room(tmp_path: Path) -> Path:
    """A clone of one crate, whose scripts quick and build hand over programs that say their names."""
    for name in ("reyes", "why", "scripts/clone.py", "scripts/launching.py", "docs/usage.txt"):
        (tmp_path / name).parent.mkdir(parents=True, exist_ok=True)
        shutil.copy(TOP / name, tmp_path / name)
    (tmp_path / "crates.txt").write_text("reyes: base\nwhy: base\nbase:\n")
    for name in ("reyes", "why"):
        put(tmp_path / f"crates/{name}/src/main.rt", "fn main() {}\n")
    put(tmp_path / "crates/base/src/lib.rt", "// nothing\n")
    put(tmp_path / "a.rib", "")
    (tmp_path / "CHANGELOG.md").write_text("# Changes\n\n## 0.9 (2026-12-01)\n\n## 0.8 (2026-11-01)\n")
    put(tmp_path / "unproved", SAYS.format(name="unproved"))
    put(tmp_path / "scripts/quick", f"#!/bin/sh\necho {tmp_path}/unproved\n")
    put(tmp_path / "proved", SAYS.format(name="proved"))
    program = f"{tmp_path}/crates/reyes/out/reyes"
    put(tmp_path / "scripts/build", f"#!/bin/sh\nmkdir -p {tmp_path}/crates/reyes/out\ncp {tmp_path}/proved {program}\n")
    return tmp_path


def run(room: Path, *words: str, **more: str) -> tuple[int, str, str]:
    environment = {**os.environ, **more}
    ran = subprocess.run([room / "reyes", *words], cwd=room, env=environment, stdin=subprocess.DEVNULL, capture_output=True, text=True)
    return ran.returncode, ran.stdout, ran.stderr


def test_the_quick_program_is_told_at_each_run(room: Path) -> None:
    for _ in range(2):
        assert run(room, "render", "a.rib") == (0, "unproved render a.rib\n", "reyes: this program is unproved; scripts/build proves it\n")


def test_the_proved_program_is_taken_and_nothing_said(room: Path) -> None:
    subprocess.run([room / "scripts/build"], check=True)
    assert run(room, "render", "a.rib") == (0, "proved render a.rib\n", "")


def test_a_proved_program_of_older_sources_is_not_taken(room: Path) -> None:
    subprocess.run([room / "scripts/build"], check=True)
    late = (room / "crates/reyes/out/reyes").stat().st_mtime + 10
    os.utime(room / "crates/base/src/lib.rt", (late, late))
    assert run(room, "render", "a.rib")[1] == "unproved render a.rib\n"


def test_the_proof_can_be_insisted_on(room: Path) -> None:
    assert run(room, "check", "a.rib", REYES_BUILD="proved")[:2] == (0, "proved check a.rib\n")
    status, _, said = run(room, "check", "a.rib", REYES_BUILD="fast")
    assert (status, said.count("\n")) == (2, 1)


def test_a_kit_that_hands_over_no_program_leads_to_the_proof(room: Path) -> None:
    put(room / "scripts/quick", "#!/bin/sh\nexit 3\n")
    status, out, said = run(room, "render", "a.rib")
    assert (status, out, said) == (0, "proved render a.rib\n", "reyes: so the program is proved first\n")


def test_sources_that_do_not_compile_are_not_proved_either(room: Path) -> None:
    put(room / "scripts/quick", "#!/bin/sh\nexit 1\n")
    assert run(room, "render", "a.rib")[:2] == (1, "")


@pytest.mark.parametrize("words", [(), ("draw", "a.rib"), ("render",)])
def test_words_that_cannot_be_a_command_are_answered_at_once(room: Path, words: tuple[str, ...]) -> None:
    put(room / "scripts/quick", f"#!/bin/sh\ntouch {room}/called\n")
    status, out, said = run(room, *words)
    assert (status, out, said) == (2, "", (TOP / "docs/usage.txt").read_text())
    assert not (room / "called").exists()


def test_the_path_of_the_program_is_told(room: Path) -> None:
    assert run(room, "--program") == (0, f"{room}/unproved\n", "reyes: this program is unproved; scripts/build proves it\n")
    subprocess.run([room / "scripts/build"], check=True)
    assert run(room, "--program") == (0, f"{room}/crates/reyes/out/reyes\n", "")


def test_help_after_an_action_is_help(room: Path) -> None:
    assert run(room, "render", "--help") == (0, (TOP / "docs/usage.txt").read_text(), "")


def test_the_version_is_that_of_the_changes(room: Path) -> None:
    status, out, _ = run(room, "--version")
    assert status == 0
    assert out.startswith("reyes 0.9 (2026-12-01)")
    assert "not proved" in out
    subprocess.run([room / "scripts/build"], check=True)
    assert "not proved" not in run(room, "--version")[1]


@pytest.mark.parametrize(
    "words, status",
    [("render a.rib b.rib", 2), ("render", 2), ("demo 5 6", 2), ("--bucket 16 render", 2), ("--stats", 2), ("render a.rib --bucket 16 b.rib", 2), ("render nosuch.rib", 6), ("check nosuch.rib", 6)],
)
def test_what_needs_no_program_is_told_before_one_is_built(room: Path, words: str, status: int) -> None:
    put(room / "scripts/quick", "#!/bin/sh\nexit 99\n")
    said = "nosuch.rib: missing\n" if status == 6 else (TOP / "docs/usage.txt").read_text()
    assert run(room, *words.split()) == (status, "", said)


@pytest.mark.parametrize("words", ["render -- nosuch.rib", "--bucket 16 render nosuch.rib", "part nosuch.rib", "render a.rib --bucket", "join a --of 2", "render .", "demo x", "render a.rib/b"])
def test_all_other_words_go_to_the_program(room: Path, words: str) -> None:
    assert run(room, *words.split())[:2] == (0, f"unproved {words}\n")


def why(room: Path, *words: str, **more: str) -> tuple[int, str, str]:
    ran = subprocess.run([room / "why", *words], cwd=room, env={**os.environ, **more}, stdin=subprocess.DEVNULL, capture_output=True, text=True)
    return ran.returncode, ran.stdout, ran.stderr


def test_a_pixel_is_explained_by_the_quick_program_too(room: Path) -> None:
    said = "reyes: this program is unproved; scripts/build why proves it\n"
    assert why(room, "a.rib", "1", "2", "--points") == (0, "unproved a.rib 1 2 --points\n", said)
    assert why(room, "--program") == (0, f"{room}/unproved\n", said)


def test_the_proof_of_the_program_that_explains_can_be_insisted_on(room: Path) -> None:
    put(room / "scripts/build", f"#!/bin/sh\nmkdir -p {room}/crates/$1/out\ncp {room}/proved {room}/crates/$1/out/$1\n")
    assert why(room, "a.rib", "1", "2", REYES_BUILD="proved") == (0, "proved a.rib 1 2\n", "")


def test_no_words_are_no_question(room: Path) -> None:
    put(room / "scripts/quick", "#!/bin/sh\nexit 99\n")
    status, out, said = why(room)
    assert (status, out) == (2, "") and "./why NAME X Y" in said
