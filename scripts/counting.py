"""How many instructions each example takes, by valgrind, against those of a stored table."""
from __future__ import annotations

import os
import re
import shutil
import subprocess
from collections.abc import Callable, Sequence
from concurrent.futures import ThreadPoolExecutor

import clone
import drawing
from clone import Trouble

TABLE = clone.TOP / "scripts/counts.txt"
HEAD = "# Millions of instructions of each example, by valgrind, of the program that scripts/quick builds; scripts/test --counts --write writes them.\n"
# By what part of its stored count a scene may grow before it is told.
GROWTH = 0.03


def counted(scene: str) -> float:
    """The millions of instructions that a scene takes. Raises Trouble where it isn't drawn."""
    with drawing.room(scene) as (folder, name):
        valgrind = ["valgrind", "--tool=cachegrind", "--cache-sim=no", "--cachegrind-out-file=/dev/null"]
        ran = subprocess.run([*valgrind, drawing.program(), "render", name], cwd=folder, stdin=subprocess.DEVNULL, capture_output=True, text=True)
    refs = re.search(r"I\s+refs:\s+([\d,]+)", ran.stderr)
    if ran.returncode or refs is None:
        raise Trouble(f"{scene}: status {ran.returncode} under valgrind: {ran.stderr.strip().splitlines()[-1:]}")
    return int(refs[1].replace(",", "")) / 1e6


def all_counted(scenes: Sequence[str], told: Callable[[int], object]) -> dict[str, float]:
    """The counts of these scenes, side by side, the dearest of the table first. Raises Trouble where there is no valgrind."""
    if shutil.which("valgrind") is None:
        raise Trouble("there is no valgrind here: apt-get install valgrind")
    found, known = dict[str, float](), stored()
    order = sorted(scenes, key=lambda scene: -known.get(scene, float("inf")))
    with ThreadPoolExecutor(os.cpu_count()) as lanes:
        for scene, count in zip(order, lanes.map(counted, order)):
            found[scene] = count
            told(1)
    return found


def stored() -> dict[str, float]:
    """The stored counts, by scene."""
    lines = TABLE.read_text(encoding="utf-8").splitlines() if TABLE.is_file() else []
    rows = (line.split() for line in lines if not line.startswith("#"))
    return {scene: float(count) for scene, count in rows}


def write(found: dict[str, float]) -> None:
    TABLE.write_text(HEAD + "".join(f"{scene} {count:.1f}\n" for scene, count in sorted(found.items())), encoding="utf-8")


def told_of(found: dict[str, float], known: dict[str, float]) -> tuple[list[str], int]:
    """A line for each scene, and how many of them became dearer than they may, or aren't in the table."""
    lines, dearer = [], 0
    for scene, count in sorted(found.items()):
        if scene not in known:
            lines.append(f"{scene}: {count:,.0f} million instructions, and none are stored")
            dearer += 1
            continue
        change = count / known[scene] - 1
        word = "DEARER" if change > GROWTH else "as stored" if change > -GROWTH else "cheaper"
        lines.append(f"{scene}: {count:,.0f} million instructions, {100 * change:+.1f} per cent: {word}")
        dearer += change > GROWTH
    return lines, dearer
