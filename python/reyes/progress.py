"""How far a drawing is: a bar where a terminal is there, a line every ten seconds where not, and a picture that grows."""
from __future__ import annotations

import os
import sys
import time
from contextlib import suppress
from pathlib import Path
from typing import TYPE_CHECKING, Any

from reyes import bands, places
from reyes.errors import Trouble

if TYPE_CHECKING:
    from collections.abc import Iterable

    from reyes.drawing import Picture
PAGE = os.sysconf("SC_PAGE_SIZE")
EVERY = 10.0  # seconds between lines
SHARE = 0.05  # of the time, at most, goes into the picture that grows
FIRST = 4.0  # seconds before the first of them, which loads NumPy
Part = tuple[bands.Span, tuple[bands.Head, bytes]]  # some rows, with their head and their bytes


class Silent:
    """Tells nothing."""

    def begin(self, picture: Picture) -> None:
        """A picture is begun."""

    def tick(self, under_way: Iterable[Picture]) -> None:
        """Some time has gone by, or a band has come."""

    def whole(self, name: str) -> None:
        """A picture was written."""

    def close(self) -> None:
        """All is done, or nothing more will be."""


class Counted(Silent):
    """Counts the rows of all pictures, and keeps a picture of those that are there."""

    def __init__(self, rows: int, growing: bool) -> None:
        self.rows, self.done, self.kept_rows = rows, 0, 0
        self.growing = growing
        self.begun_at = time.monotonic()
        self.all: list[Picture] = []
        self.next_growth = self.begun_at + FIRST

    def begin(self, picture: Picture) -> None:
        self.kept_rows += picture.kept.done()
        self.all.append(picture)

    def tick(self, under_way: Iterable[Picture]) -> None:
        active = {id(it): it for it in under_way}
        self.done = sum(it.kept.done() for it in self.all) + sum(_rows_of(run) for it in active.values() for run in list(it.runs))
        memory = sum(_memory(run) for it in active.values() for run in list(it.runs))
        self.show(memory)
        if self.growing and active and time.monotonic() >= self.next_growth:
            begun = time.monotonic()
            grow(next(iter(active.values())))
            self.next_growth = time.monotonic() + max(1.0, (time.monotonic() - begun) / SHARE)

    def to_go(self) -> float | None:
        """The seconds that are still needed, by the rows of this run so far; None where nothing can be said yet."""
        drawn, spent = self.done - self.kept_rows, time.monotonic() - self.begun_at
        return spent * (self.rows - self.done) / drawn if drawn > 0 and spent > 0.5 else None

    def show(self, memory: int) -> None:
        """Shows the count."""


class Lines(Counted):
    """A line every ten seconds on standard error."""

    def __init__(self, rows: int, growing: bool) -> None:
        super().__init__(rows, growing)
        self.next_line = self.begun_at + EVERY

    def show(self, memory: int) -> None:
        if time.monotonic() >= self.next_line:
            self.next_line += EVERY
            left = self.to_go()
            ahead = "" if left is None else f", {_span(left)} to go"
            print(f"{self.done} of {self.rows} rows, {100 * self.done // self.rows} %{ahead}", file=sys.stderr, flush=True)


class Bar(Counted):
    """A bar on a terminal: rows, per cent, the time to go, memory."""

    def __init__(self, rows: int, growing: bool) -> None:
        super().__init__(rows, growing)
        from rich.console import Console
        from rich.progress import BarColumn, Progress, TextColumn

        columns: list[Any] = [
            TextColumn("{task.description}"), BarColumn(), TextColumn("{task.completed}/{task.total} rows"),
            TextColumn("{task.percentage:>3.0f} %"), TextColumn("{task.fields[left]}"), TextColumn("{task.fields[memory]}"),
        ]
        self.bar = Progress(*columns, console=Console(stderr=True), transient=True)
        self.task = self.bar.add_task("", total=rows, left="", memory="")
        self.bar.start()

    def begin(self, picture: Picture) -> None:
        super().begin(picture)
        self.bar.update(self.task, description=picture.name)

    def show(self, memory: int) -> None:
        left = self.to_go()
        ahead = "" if left is None else f"{_span(left)} to go"
        self.bar.update(self.task, completed=self.done, left=ahead, memory=f"{memory / 1e6:.0f} MB" if memory else "")

    def whole(self, name: str) -> None:
        self.bar.console.print(name, highlight=False)

    def close(self) -> None:
        self.bar.stop()


def counted(rows: int, growing: bool, quiet: bool) -> Silent:
    """The right one: nothing where the user wants quiet, a bar on a terminal, else lines."""
    if quiet:
        return Silent()
    return Bar(rows, growing) if sys.stderr.isatty() else Lines(rows, growing)


def grow(it: Picture) -> None:
    """Writes the rows of a picture that are there to so_far.png among its bands; the others are transparent."""
    if it.kept.folder is None:
        return
    parts = [(rows, (it.kept.head, part)) for rows, part in it.kept.parts.items() if it.kept.head is not None]
    for run in list(it.runs):
        found = _rows_so_far(run)
        if found is not None:
            parts.append(found)
    parts = [part for part in parts if part[0][0] < part[0][1]]
    if parts:
        with suppress(OSError, Trouble):
            it.kept.folder.mkdir(exist_ok=True)
            places.replace(it.kept.folder / "so_far.png", _png_of(it.kept.rows, parts))


def _png_of(rows: bands.Span, parts: list[Part]) -> bytes:
    """A PNG of some rows of a picture; the others are transparent."""
    import numpy as np

    from reyes import picture

    width = max(head[0] for _, (head, _) in parts)
    whole = np.zeros((rows[1] - rows[0], width, 4), np.uint8)
    for (first, end), (head, part) in parts:
        levels = picture.from_ppm(b"P6\n%d %d\n%d\n" % (head[0], end - first, head[1]) + part)
        place = slice(first - rows[0], end - rows[0])
        whole[place, :, :3] = levels >> 8 if levels.dtype == np.uint16 else levels
        whole[place, :, 3] = 255
    return picture.to_png(whole)


def _rows_so_far(run: bands.Run) -> Part | None:
    """The whole rows that a run has given so far."""
    data = bytes(run.data)
    head = bands.HEADER.match(data)
    if head is None:
        return None
    width, _, most = map(int, head.groups())
    row = 3 * (2 if most > 255 else 1) * width
    count = (len(data) - head.end()) // row
    return (run.band.rows[0], run.band.rows[0] + count), ((width, most), data[head.end() : head.end() + count * row])


def _rows_of(run: bands.Run) -> int:
    head = bands.HEADER.match(bytes(run.data[:40]))
    if head is None:
        return 0
    width, _, most = map(int, head.groups())
    return (len(run.data) - head.end()) // (3 * (2 if most > 255 else 1) * width)


def _memory(run: bands.Run) -> int:
    """The bytes of memory that a run has in use, as Linux tells them."""
    try:
        return int(Path(f"/proc/{run.process.pid}/statm").read_text("ascii").split()[1]) * PAGE
    except (OSError, ValueError, IndexError):
        return 0


def _span(seconds: float) -> str:
    whole = round(seconds)
    return f"{whole} s" if whole < 120 else f"{whole // 60} min" if whole < 7200 else f"{whole // 3600} h"
