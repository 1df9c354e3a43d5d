"""This clone of the repository, for the scripts beside this file: its crates, the sums of their sources, its programs and the Rattle kit."""
from __future__ import annotations

import functools
import hashlib
import os
import re
import shutil
import subprocess
from pathlib import Path

TOP = Path(__file__).resolve().parent.parent
CRATES = TOP / "crates"
# The parts of a crate that its proof reads; its program is made of the first alone.
PROVED_PARTS = ("src", "specs", "proofs")
PROGRAM_PARTS = ("src",)


class Trouble(Exception):
    """What a script tells its user in one line."""


class NoKit(Trouble):
    """The Rattle kit isn't there."""


@functools.cache
def named() -> dict[str, list[str]]:
    """What each crate of crates.txt stands on, crates of the kit among them."""
    found = {}
    for line in (TOP / "crates.txt").read_text(encoding="utf-8").splitlines():
        row = re.match(r"\s*([a-z0-9_]+)[^:#]*:([^#]*)", line)
        if row:
            found[row[1]] = row[2].split()
    return found


@functools.cache
def below(name: str) -> frozenset[str]:
    """Every crate of the repository that this one stands on."""
    own = [it for it in named()[name] if it in named()]
    return frozenset(own).union(*map(below, own))


def of_kit(name: str) -> list[str]:
    """The crates of the kit that this one names, the standard library first."""
    return ["std", *(it for it in named()[name] if it not in named())]


@functools.cache
def crate_sum(name: str, parts: tuple[str, ...]) -> str:
    """The SHA-256 of the files in these parts of a crate, with their names."""
    found = hashlib.sha256(" ".join([name, *named()[name]]).encode())
    for part in parts:
        for folder, folders, files in os.walk(CRATES / name / part):
            folders.sort()
            for file in sorted(files):
                text = Path(folder, file).read_bytes()
                found.update(f"{os.path.relpath(folder, TOP)}/{file} {len(text)} ".encode() + text)
    return found.hexdigest()


def sources_sum(name: str, parts: tuple[str, ...]) -> str:
    """The SHA-256 of a crate and of all crates below it, as far as these parts go."""
    sums = (crate_sum(it, parts) for it in (name, *sorted(below(name))))
    return hashlib.sha256(" ".join(sums).encode()).hexdigest()


def program(name: str) -> Path:
    """Where the proved program of this name is, once it is built."""
    return CRATES / name / "out" / name


def record(name: str) -> Path:
    """Where scripts/build writes of which sources it built a program."""
    return CRATES / name / "out" / f"{name}.sources"


def is_newer_than_sources(path: Path, name: str) -> bool:
    """Whether a file is younger than every source of a crate and of the crates below it."""
    made = path.stat().st_mtime_ns
    if (TOP / "crates.txt").stat().st_mtime_ns > made:
        return False
    for it in (name, *below(name)):
        for part in PROVED_PARTS:
            for folder, _, files in os.walk(CRATES / it / part):
                if any(os.stat(f"{folder}/{file}").st_mtime_ns > made for file in files):
                    return False
    return True


def proved(name: str) -> Path | None:
    """The proved program of these sources, or None. scripts/build writes a record of the sources beside the program; one that the kit's
    own commands left has none of its age, and has to be younger than every source.
    """
    path, kept = program(name), record(name)
    if not os.access(path, os.X_OK):
        return None
    if kept.is_file() and kept.stat().st_mtime_ns >= path.stat().st_mtime_ns:
        fits = kept.read_text(encoding="utf-8").strip() == sources_sum(name, PROVED_PARTS)
    else:
        fits = is_newer_than_sources(path, name)
    return path if fits else None


def said_by_rt(word: str) -> str:
    """What the kit's `rt` answers to a word, as `doc` or `version`. Raises NoKit where there is none."""
    if shutil.which("rt") is None:
        raise NoKit("the Rattle kit's `rt` isn't on the path")
    ran = subprocess.run(["rt", word], stdin=subprocess.DEVNULL, capture_output=True, text=True)
    if ran.returncode:
        raise NoKit(f"`rt {word}` ended with {ran.returncode}: {ran.stderr.strip()}")
    return ran.stdout.strip()


@functools.cache
def kit() -> Path:
    """The folder of the Rattle kit."""
    return Path(said_by_rt("doc")).parent


@functools.cache
def kit_line() -> str:
    """The line that names the kit."""
    return said_by_rt("version")


def version() -> str:
    """The newest version that CHANGELOG.md names, with its date: `0.1 (2026-12-01)`."""
    page = TOP / "CHANGELOG.md"
    text = page.read_text(encoding="utf-8") if page.is_file() else ""
    line = re.search(r"^## (\d+(?:\.\d+)+ \(\d{4}-\d\d-\d\d\))", text, re.M)
    return line[1] if line else "of no version"
