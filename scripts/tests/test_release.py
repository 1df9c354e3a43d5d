"""The archive of a release: what it holds, and that it has the same bytes whoever makes it."""
import hashlib
import os
import subprocess
import tarfile
from pathlib import Path

import pytest

QUIET = {**os.environ, "GIT_CONFIG_GLOBAL": "/dev/null", "GIT_AUTHOR_DATE": "2026-12-01T00:00:00Z", "GIT_COMMITTER_DATE": "2026-12-01T00:00:00Z"}


def git(room: Path, *words: str) -> None:
    subprocess.run(["git", "-c", "user.name=a", "-c", "user.email=a", *words], cwd=room, env=QUIET, check=True, capture_output=True)


def made(top: Path, room: Path) -> Path:
    """A repository with its proved programs."""
    texts = {
        "crates.txt": "reyes:\nwhy:\n", "crates/reyes/src/main.rt": "fn main() {}\n", "crates/why/src/main.rt": "fn main() {}\n", "CHANGELOG.md": "## 0.9 (2026-12-01)\n", ".gitignore": "out/\n/dist/\n__pycache__/\n",
        "LICENSE-MIT": "may\n", "docs/RIB.md": "requests\n", "examples/a.rib": "WorldBegin\n", "elsewhere.txt": "no\n",
    }
    for name, text in texts.items():
        (room / name).parent.mkdir(parents=True, exist_ok=True)
        (room / name).write_text(text)
    (room / "scripts").mkdir()
    for name in ("release", "clone.py"):
        (room / "scripts" / name).write_bytes((top / "scripts" / name).read_bytes())
    (room / "scripts/release").chmod(0o755)
    git(room, "init", "-q")
    git(room, "add", "-A")
    git(room, "commit", "-qm", "all")
    for name in ("reyes", "why"):
        program = room / f"crates/{name}/out/{name}"
        program.parent.mkdir()
        program.write_text(f"{name}\n")
        program.chmod(0o755)
    return room


def release(room: Path) -> subprocess.CompletedProcess[str]:
    return subprocess.run([room / "scripts/release"], cwd=room, env=QUIET, stdin=subprocess.DEVNULL, capture_output=True, text=True)


def test_the_same_commit_and_program_give_the_same_bytes(top: Path, tmp_path: Path) -> None:
    sums = set()
    for name in ("one", "two"):
        room = made(top, tmp_path / name)
        assert release(room).returncode == 0
        sums.add((room / "dist/SHA256SUMS").read_text())
        subprocess.run(["sha256sum", "--quiet", "-c", "SHA256SUMS"], cwd=room / "dist", check=True)
    assert len(sums) == 1


def test_an_archive_holds_the_program_with_the_sums_of_all(top: Path, tmp_path: Path) -> None:
    room = made(top, tmp_path / "one")
    release(room)
    with tarfile.open(room / "dist/reyes-0.9-x86_64-linux.tar.gz") as archive:
        names = {it.name.partition("/")[2]: it for it in archive.getmembers()}
        texts = {name: archive.extractfile(it).read() for name, it in names.items()}  # type: ignore[union-attr]
    assert set(names) == {"CHANGELOG.md", "LICENSE-MIT", "SHA256SUMS", "docs/RIB.md", "examples/a.rib", "reyes", "why"}
    assert names["reyes"].mode == names["why"].mode == 0o755 and names["docs/RIB.md"].mode == 0o644
    assert {it.uid for it in names.values()} == {0}
    lines = texts["SHA256SUMS"].decode().splitlines()
    assert lines[0] == f"{hashlib.sha256(b'reyes' + bytes([10])).hexdigest()}  reyes"
    assert lines[1].endswith("  why")
    assert len(lines) == len(names) - 1


def test_sources_that_are_not_committed_are_not_released(top: Path, tmp_path: Path) -> None:
    room = made(top, tmp_path / "one")
    (room / "examples/a.rib").write_text("WorldEnd\n")
    ran = release(room)
    assert ran.returncode == 1
    assert ran.stderr == "release: what differs from the last commit can't be released: M examples/a.rib\n"


@pytest.mark.parametrize("name", ["reyes", "why"])
def test_an_unproved_program_is_not_released(top: Path, tmp_path: Path, name: str) -> None:
    room = made(top, tmp_path / "one")
    (room / f"crates/{name}/out/{name}").unlink()
    ran = release(room)
    said = f"release: there is no proved program {name} of these sources: scripts/build {name} proves it\n"
    assert (ran.returncode, ran.stderr) == (1, said)
