"""Pixels explained: the bytes that the program `why` gives for pixels have to be those of the pictures that `reyes` draws.

The two programs have the definitions in common, and little of their code: `reyes` draws bucket by bucket, `why` looks at one pixel's samples
with all that the frame has there. Of each example and of each stored case that draws three pixels are taken, always the same ones.
"""
from __future__ import annotations

import contextlib
import json
import os
import random
import re
import subprocess
import sys
import tempfile
from collections.abc import Callable, Iterator, Mapping, Sequence
from concurrent.futures import ThreadPoolExecutor
from dataclasses import dataclass
from pathlib import Path

import clone
import drawing
import stored
from clone import Trouble

sys.path.append(os.fspath(clone.TOP / "python"))

from reyes import scene as scenes

PIXELS = 3
HEADER = re.compile(rb"P6\n(\d+) (\d+)\n(\d+)\n")
# How long a run of a program may take, in seconds.
PATIENCE = 1200


@dataclass(frozen=True)
class Picture:
    """A picture that was drawn: its frame, its size in pixels, how many bytes a pixel has, and the bytes of all pixels."""

    frame: scenes.Frame
    width: int
    height: int
    depth: int
    data: bytes

    def pixel(self, x: int, y: int) -> bytes:
        """The bytes of a pixel by its place in the frame, of which the picture has a part alone."""
        column, row = x - self.frame.columns[0], y - self.frame.rows[0]
        at = (row * self.width + column) * self.depth
        return self.data[at : at + self.depth]


@dataclass(frozen=True)
class Explained:
    """How the pixels of a scene compare: how many were explained, and a line for each whose bytes are others."""

    pixels: int
    wrong: tuple[str, ...]


def program() -> Path:
    """The program that explains: what WHY names, else the launcher, which builds it where it has to."""
    return Path(os.environ.get("WHY") or clone.TOP / "why").absolute()


def run(path: Path, words: Sequence[str], folder: Path) -> subprocess.CompletedProcess[bytes]:
    """A run of a program to its end. Raises Trouble where it takes too long."""
    try:
        return subprocess.run([path, *words], cwd=folder, stdin=subprocess.DEVNULL, capture_output=True, timeout=PATIENCE)
    except subprocess.TimeoutExpired as late:
        raise Trouble(f"{path.name} {' '.join(words)} didn't end in {PATIENCE} seconds") from late


def read(frame: scenes.Frame, data: bytes) -> Picture:
    """A picture from its file. Raises Trouble where that is no picture of the frame's size."""
    head = HEADER.match(data)
    if head is None:
        raise Trouble(f"{frame.options.display} is no picture")
    width, height, most = (int(it) for it in head.groups())
    made = Picture(frame, width, height, 6 if most > 255 else 3, data[head.end() :])
    sides = (frame.columns[1] - frame.columns[0], frame.rows[1] - frame.rows[0])
    if sides != (width, height) or len(made.data) != width * height * made.depth:
        raise Trouble(f"{frame.options.display} is {width} by {height} pixels in place of {sides[0]} by {sides[1]}")
    return made


def left(text: bytes, folder: Path) -> list[Picture]:
    """The pictures that are left of a scene that was drawn in a folder: of frames of one name the last."""
    last = {it.options.display: it for it in scenes.read(text).frames}
    return [read(it, (folder / name).read_bytes()) for name, it in last.items() if (folder / name).is_file()]


def chosen(pictures: Sequence[Picture], seed: str) -> list[tuple[Picture, int, int]]:
    """Pixels by their places in their frames, always the same ones for a seed."""
    dice = random.Random(seed)
    found = []
    for _ in range(PIXELS if pictures else 0):
        it = dice.choice(pictures)
        found.append((it, dice.randrange(*it.frame.columns), dice.randrange(*it.frame.rows)))
    return found


def explained(name: str, picture: Picture, x: int, y: int, folder: Path) -> str | None:
    """What is wrong with the bytes that `why` gives for a pixel, if anything is."""
    words = [name, str(x), str(y), "--frame", str(picture.frame.place)]
    ran = run(program(), words, folder)
    if ran.returncode:
        return f"why {' '.join(words)}: status {ran.returncode}: {ran.stderr.decode(errors='replace').strip()}"
    account = json.loads(ran.stdout)
    drawn, told = list(picture.pixel(x, y)), account["bytes"]
    if account["frame"]["file"] != picture.frame.options.display:
        return f"why {' '.join(words)}: the picture is {account['frame']['file']} in place of {picture.frame.options.display}"
    return None if told == drawn else f"why {' '.join(words)}: {told} in place of {drawn}"


def compared(words: Sequence[str], folder: Path, seed: str) -> Explained:
    """Draws a scene in its folder by these words, the second of which is its name, and has pixels of it explained. Where the files of a
    stored case can't be written as they are in memory, nothing is. Raises Trouble where what was drawn isn't the scene's.
    """
    if run(drawing.program(), words, folder).returncode:
        return Explained(0, ())
    pixels = chosen(left((folder / words[1]).read_bytes(), folder), seed)
    wrong = (explained(words[1], picture, x, y, folder) for picture, x, y in pixels)
    return Explained(len(pixels), tuple(it for it in wrong if it))


def example(name: str) -> Explained:
    """The pixels of an example. Raises Trouble where it isn't drawn."""
    with drawing.room(name) as (folder, scene):
        found = compared(["render", scene], folder, name)
    if not found.pixels:
        raise Trouble(f"{name} isn't drawn")
    return found


@contextlib.contextmanager
def room(files: Mapping[str, bytes]) -> Iterator[Path]:
    """A folder with these files."""
    with tempfile.TemporaryDirectory(prefix="reyes-pixels-") as made:
        for name, data in files.items():
            (Path(made) / name).write_bytes(data)
        yield Path(made)


def draws(store: stored.Store, name: str) -> bool:
    """Whether a stored case draws a scene from a file, and its files can stand in one folder."""
    words, files = stored.words_of(store.cases[name]).split(), stored.files_of(store.cases[name])
    plain = all(re.fullmatch(r"[A-Za-z0-9_.-]{1,100}", it) for it in files)
    return plain and words[:1] == ["render"] and words[1:2] != [] and words[1] in files and stored.status_of(store.answers[name]) == "0"


def case(store: stored.Store, name: str) -> Explained:
    """The pixels of a stored case."""
    with room(stored.files_of(store.cases[name])) as folder:
        return compared(stored.words_of(store.cases[name]).split(), folder, name)


def parts() -> dict[str, Callable[[], Explained]]:
    """The examples and the stored cases whose pixels are explained, by name: what takes longest first."""
    store, found = stored.Store(), dict[str, Callable[[], Explained]]()
    for name in drawing.scenes():
        found[name] = lambda name=name: example(name)  # type: ignore[misc]
    for name in store.cases:
        if draws(store, name):
            found[name] = lambda name=name: case(store, name)  # type: ignore[misc]
    return found


def tried(part: tuple[str, Callable[[], Explained]]) -> list[str]:
    """A line for each pixel of a part that is explained otherwise than it was drawn."""
    name, compare = part
    try:
        return [f"{name}: {line}\n" for line in compare().wrong]
    except (Trouble, OSError, ValueError) as fault:
        return [f"{name}: {fault}\n"]


def all_compared(told: Callable[[int], object] = lambda count: None) -> dict[str, list[str]]:
    """What is wrong with the pixels of each example and of each stored case that draws, these side by side on all processors."""
    every, found = parts(), dict[str, list[str]]()
    with ThreadPoolExecutor(os.cpu_count()) as lanes:
        for name, wrong in zip(every, lanes.map(tried, every.items())):
            found[name] = wrong
            told(1)
    return found
