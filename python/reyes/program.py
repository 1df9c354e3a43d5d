"""The renderer itself, and the program `why` beside it: where they are, and a run of the renderer."""
from __future__ import annotations

import functools
import os
import shutil
import subprocess
from collections.abc import Sequence
from dataclasses import dataclass
from pathlib import Path

from reyes.errors import MISSING, Trouble

CLONE = Path(__file__).resolve().parent.parent.parent


@dataclass(frozen=True)
class Answer:
    """How a run ended: its status (below 0 the signal that ended it) and the lines on its standard error."""

    status: int
    notes: tuple[str, ...]


def find(name: str = "reyes") -> Path:
    """The renderer's program, or another one by its name: what REYES names (WHY for `why`), else that of the clone in which this package
    stands (its proved program, or the launcher, which builds it), else the one on the path. Raises Trouble where there is none.
    """
    variable = name.upper()
    named = os.environ.get(variable)
    if named:
        path = Path(named).absolute()
        if not os.access(path, os.X_OK) or path.is_dir():
            raise Trouble(f"{named}: no program is there ({variable} names it)", MISSING)
        return path
    for path in (CLONE / f"crates/{name}/out/{name}", CLONE / name):
        if path.is_file() and os.access(path, os.X_OK):
            return path
    on_path = shutil.which(name)
    if on_path is None:
        raise Trouble(f"no program `{name}` is on the path: let {variable} name it", MISSING)
    return Path(on_path).absolute()


def ready(name: str = "reyes") -> Path:
    """The program to be run: what `find` finds; in a clone the proved program where it is of the sources there, else the quick one, which
    is built first where it has to, as the clone's launcher does. Raises Trouble where it can't be built.
    """
    path = find(name)
    # in a release's folder, too, a file `reyes` stands beside the package, but that is the program itself
    in_clone = CLONE in path.parents and (CLONE / "crates.txt").is_file()
    return _of_clone(name) if in_clone and not os.environ.get(name.upper()) else path


@functools.cache
def _of_clone(name: str) -> Path:
    """The program that the clone's launcher would run, which says on standard error where it is unproved."""
    told = subprocess.run([CLONE / name, "--program"], stdin=subprocess.DEVNULL, stdout=subprocess.PIPE, text=True, check=False)
    if told.returncode != 0:
        raise Trouble(f"the program isn't built: scripts/build proves and builds it, and {name.upper()} may name another", told.returncode)
    return Path(told.stdout.strip())


def start(words: Sequence[str], folder: Path, program: Path | None = None) -> subprocess.Popen[bytes]:
    """Starts the program with these words in a folder; its notes go to the process's `stderr`. Raises Trouble where it can't."""
    path = find() if program is None else program
    try:
        return subprocess.Popen(
            [os.fspath(path), *words], cwd=folder, stdin=subprocess.DEVNULL, stdout=subprocess.DEVNULL, stderr=subprocess.PIPE
        )
    except OSError as fault:
        raise Trouble(f"{path}: {fault.strerror or fault}") from fault


def run(words: Sequence[str], folder: Path, program: Path | None = None) -> Answer:
    """Runs the program with these words in a folder, to its end."""
    with start(words, folder, program) as process:
        try:
            notes = process.communicate()[1]
        except BaseException:
            process.kill()
            raise
    return Answer(process.returncode, tuple(notes.decode("utf-8", "replace").splitlines()))
