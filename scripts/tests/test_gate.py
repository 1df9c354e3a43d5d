"""The gate: `rt ci` decides, and scripts/test follows with the programs that it proved."""
import os
import shutil
import subprocess
from pathlib import Path

import pytest


def put(path: Path, text: str) -> None:
    path.parent.mkdir(parents=True, exist_ok=True)
    path.write_text(f"#!/bin/sh\n{text}\n")
    path.chmod(0o755)


@pytest.fixture
def room(top: Path, tmp_path: Path) -> Path:
    """A repository with the gate, and tools that tell what they are called with."""
    for name in (".ci/run", "scripts/packages.txt"):
        (tmp_path / name).parent.mkdir(parents=True, exist_ok=True)
        shutil.copy(top / name, tmp_path / name)
    put(tmp_path / "scripts/test", 'echo "$REYES $WHY $CONFORMANCE"\necho "7 passed, 0 failed"')
    put(tmp_path / "tools/rt", 'echo "rt $* in $PWD"')
    put(tmp_path / "tools/id", "echo 0")
    put(tmp_path / "tools/dpkg", "exit 0")
    put(tmp_path / "tools/apt-get", 'echo "apt-get $*"')
    return tmp_path


def run(room: Path) -> tuple[int, list[str]]:
    environment = {**os.environ, "PATH": f"{room}/tools:/usr/bin:/bin"}
    ran = subprocess.run([room / ".ci/run"], cwd="/", env=environment, stdin=subprocess.DEVNULL, capture_output=True, text=True)
    return ran.returncode, ran.stdout.splitlines()


def test_the_tests_follow_the_proofs(room: Path) -> None:
    programs = " ".join(f"{room}/crates/{it}/out/{it}" for it in ("reyes", "why", "conformance"))
    assert run(room) == (0, [f"rt ci in {room}", programs, "7 passed, 0 failed"])


def test_proofs_that_fail_decide(room: Path) -> None:
    put(room / "tools/rt", "echo 1 passed, 1 failed\nexit 3")
    assert run(room) == (3, ["1 passed, 1 failed"])


def test_tests_that_fail_decide(room: Path) -> None:
    put(room / "scripts/test", 'echo "6 passed, 1 failed"\nexit 1')
    assert run(room)[0] == 1


def test_what_the_tests_need_is_installed(room: Path) -> None:
    put(room / "tools/dpkg", "exit 1")
    lines = run(room)[1]
    assert lines[1] == "apt-get update -q"
    assert lines[2].startswith("apt-get install -qy --no-install-recommends python3-numpy python3-png")


def test_nobody_but_root_installs(room: Path) -> None:
    put(room / "tools/dpkg", "exit 1")
    put(room / "tools/id", "echo 1000")
    assert len(run(room)[1]) == 3
