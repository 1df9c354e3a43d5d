"""What the launchers at the top, ./reyes and ./why, have in common: which program they run, and what they say of it.

The proved program is taken where it is there and of these sources. Else it is the quick one, of the same sources before their proof, which
scripts/quick builds in two to three minutes and keeps; a line on standard error says so at each run. REYES_BUILD=proved insists on the
proved one, which scripts/build builds first where it has to.
"""
from __future__ import annotations

import os
import subprocess
import sys
from pathlib import Path

import clone
from clone import TOP

USAGE, OTHER_KIT = 2, 3


def say(text: str) -> None:
    print(f"reyes: {text}", file=sys.stderr, flush=True)


def build_words(name: str) -> list[str]:
    """The words that have scripts/build prove a program: the renderer is what it builds where no program is named."""
    return [] if name == "reyes" else [name]


def asked_of(script: str, *words: str) -> tuple[int, str]:
    """The status of a script of the repository, and what it wrote to standard output."""
    ran = subprocess.run([TOP / "scripts" / script, *words], stdin=subprocess.DEVNULL, stdout=subprocess.PIPE, text=True)
    return ran.returncode, ran.stdout.strip()


def built(name: str) -> Path:
    """The proved program, which is built first where it isn't of these sources."""
    if clone.proved(name) is None and asked_of("build", *build_words(name))[0]:
        sys.exit(1)
    return clone.program(name)


def chosen(name: str) -> Path:
    """The program to run."""
    path, insists = clone.proved(name), os.environ.get("REYES_BUILD", "")
    if insists not in ("", "proved"):
        say(f"REYES_BUILD is {insists!r}; it may be 'proved', or not be there")
        sys.exit(USAGE)
    if path is not None or insists:
        return path or built(name)
    status, quick = asked_of("quick", name)
    if status == OTHER_KIT:
        say("so the program is proved first")
        return built(name)
    if status:
        sys.exit(1)
    say(f"this program is unproved; {' '.join(['scripts/build', *build_words(name)])} proves it")
    return Path(quick)


def run(name: str, words: list[str]) -> None:
    """Goes on as the program, with these words."""
    path = chosen(name)
    os.execv(path, [os.fspath(path), *words])
