"""Proofs of the crates, for scripts/build and scripts/check: each crate once those below it are proved, as many at a time as there are
processors, the one first from which the way to the top is longest.

It calls the kit's compiler itself, since `rt lib` keeps each library's proofs for who works on them, and whoever stands on a library
then loads them all, which takes the crates at the top longer than their own proofs. Here a library holds its statements alone, as
`rt ci` has it.
"""
from __future__ import annotations

import functools
import hashlib
import os
import subprocess
import sys
import threading
import time
from collections.abc import Mapping
from pathlib import Path
from typing import IO

import clone

OUT = clone.CRATES / "reyes/out"
LIBRARIES = OUT / "libraries"
# How many processor seconds each crate's proof takes on a machine that does nothing else; `scripts/build --times` writes it.
TABLE = clone.TOP / "scripts/proof_seconds.txt"


def say(text: str) -> None:
    print(f"reyes: {text}", file=sys.stderr, flush=True)


@functools.cache
def table() -> dict[str, float]:
    """The seconds of the table, by crate."""
    rows = (line.split() for line in TABLE.read_text(encoding="utf-8").splitlines() if line and not line.startswith("#"))
    return {name: float(seconds) for name, seconds in rows}


def size(name: str) -> int:
    """The bytes of a crate's code."""
    return sum(it.stat().st_size for it in (clone.CRATES / name / "src").iterdir())


@functools.cache
def seconds(name: str) -> float:
    """How long a crate's proof takes: by the table, or, where that lacks it, as long as the table's take by their size."""
    rows = {it: known for it, known in table().items() if it in clone.named()}
    return rows[name] if name in rows else size(name) * sum(rows.values()) / max(1, sum(map(size, rows)))


@functools.cache
def way(name: str) -> float:
    """The seconds of the longest way from this crate up, this one counted."""
    return seconds(name) + max((way(it) for it in clone.named() if name in clone.named()[it]), default=0)


@functools.cache
def key(name: str) -> str:
    """The sum of all that a crate's proof reads: its text, the crates below it and the kit."""
    sums = (clone.crate_sum(it, clone.PROVED_PARTS) for it in (name, *sorted(clone.below(name))))
    return hashlib.sha256(" ".join([clone.kit_line(), *sums]).encode()).hexdigest()


def is_proved(name: str) -> bool:
    """Whether an earlier build left the library of the same text."""
    kept = LIBRARIES / f"{name}.key"
    return kept.is_file() and kept.read_text(encoding="utf-8") == key(name)


def rattle_words(call: str, name: str) -> list[str]:
    """The words of a call of the kit's compiler for a crate over the libraries below it."""
    kit = clone.kit()
    root = "main" if (clone.CRATES / name / "src/main.rt").exists() else "lib"
    words = [f"{kit}/bin/rattle", call, "--crate-name", name, f"src/{root}.rt"]
    for on in clone.of_kit(name):
        words += ["--extern", f"{on}={kit}/rlibs/{on}.rlib"]
    for on in (it for it in clone.named()[name] if it in clone.named()):
        words += ["--extern", f"{on}={LIBRARIES}/{on}.rlib"]
    words += ["-L", f"dependency={kit}/rlibs", "-L", f"dependency={LIBRARIES}"]
    return [*words, "--antt-project", f"{kit}/rattle/logic/antt-project.json", "--logic-built", f"{kit}/logic_built", "--links", f"{name}="]


def runs(words: list[str], folder: Path, log: IO[str] | None) -> tuple[bool, float]:
    """Runs a command of the kit, what it says to the log. Returns whether it went well, and its processor seconds."""
    # the prover's allocator hands memory back only to fault it in again: so a proof has a third fewer page faults and takes a little less
    environment = {"MIMALLOC_PURGE_DELAY": "-1", **os.environ}
    started = subprocess.Popen(words, cwd=folder, env=environment, stdout=log, stderr=log, stdin=subprocess.DEVNULL)
    _, status, usage = os.wait4(started.pid, 0)
    started.returncode = os.waitstatus_to_exitcode(status)
    return started.returncode == 0, usage.ru_utime + usage.ru_stime


def makespan(left: Mapping[str, float], lanes: int) -> float:
    """How long the proofs of these crates take side by side, by the seconds of each and this module's order."""
    time_now, done, running = 0.0, {it for name in left for it in clone.below(name) if it not in left}, dict[str, float]()
    waiting = sorted(left, key=lambda name: (-way(name), name))
    while waiting or running:
        for name in [it for it in waiting if clone.below(it) <= done][: lanes - len(running)]:
            waiting.remove(name)
            running[name] = time_now + left[name]
        first = min(running, key=lambda name: running[name])
        time_now = running.pop(first)
        done.add(first)
    return time_now


class Build:
    """Proves what some crate stands on."""

    def __init__(self, log: IO[str], top: str = "reyes") -> None:
        self.top = top
        self.order = sorted(clone.below(top), key=lambda name: (-way(name), name))
        self.done = {name for name in self.order if is_proved(name)}
        self.running: dict[str, float] = {}
        self.took: dict[str, float] = {}
        self.walls: dict[str, float] = {}
        self.failed: set[str] = set()
        self.log, self.lanes, self.turn = log, os.cpu_count() or 1, threading.Condition()
        self.free = self.lanes

    def to_go(self) -> float:
        """How many seconds it will still take: by the table, and by how long those that are done took against it."""
        pace = sum(self.walls.values()) / sum(map(seconds, self.walls)) if self.walls else 1.0
        now, left = time.monotonic(), {self.top: pace * seconds(self.top)}
        for name in self.order:
            if name not in self.done:
                gone = now - self.running[name] if name in self.running else 0.0
                left[name] = max(1.0, pace * seconds(name) - gone)
        return makespan(left, self.lanes)

    def ready(self) -> list[str]:
        """The crates that can be proved now, those first from which the way to the top is longest."""
        begun = self.done | self.running.keys() | self.failed
        return [name for name in self.order if name not in begun and clone.below(name) <= self.done]

    def jobs(self, ready: list[str]) -> int:
        """How many of the free processors the first of these crates gets: one, and those that no other of them takes, for a second one
        makes a proof dearer by half and hardly sooner done.
        """
        return 1 + max(0, self.free - len(ready))

    def prove(self, name: str, jobs: int) -> None:
        words = [*rattle_words("build", name), "--jobs", str(jobs), "--statements", "-o", f"{LIBRARIES}/{name}.rlib"]
        proved, took = runs(words, clone.CRATES / name, self.log)
        if proved:
            (LIBRARIES / f"{name}.key").write_text(key(name), encoding="utf-8")
        with self.turn:
            began = self.running.pop(name)
            self.free += jobs
            (self.done if proved else self.failed).add(name)
            if proved:
                self.took[name], self.walls[name] = took, time.monotonic() - began
                say(f"{name} is proved, {len(self.done)} of {len(self.order)} libraries, some {minutes(self.to_go())} to go")
            self.turn.notify()

    def run(self) -> bool:
        """Whether all of them were proved."""
        with self.turn:
            while not self.failed and len(self.done) < len(self.order):
                ready = self.ready()
                while ready and self.free:
                    jobs, name = self.jobs(ready), ready.pop(0)
                    self.free -= jobs
                    self.running[name] = time.monotonic()
                    threading.Thread(target=self.prove, args=(name, jobs)).start()
                self.turn.wait()
            while self.running:
                self.turn.wait()
        return not self.failed


def minutes(length: float) -> str:
    """A length of time in words, from seconds."""
    whole = max(1, round(length / 60))
    return f"{whole} minute{'s' if whole > 1 else ''}"
