"""What is told on standard error while a large scene is brought in: how far it is, and early that the renderer will hardly take it."""
from __future__ import annotations

import sys
import time
from collections.abc import Callable, Iterable, Iterator
from typing import TypeVar

from . import culling
from .text import Request

EVERY = 10.0  # seconds between lines
A_LOOK = 1024  # requests between looks at the clock
T = TypeVar("T")


class Silent:
    """Tells nothing."""

    def through(self, what: str, items: Iterable[T], most: int = 0) -> Iterator[T]:
        """Gives the items one by one; `most` is their number, where it is known."""
        yield from items

    def say(self, line: str) -> None:
        """Says a line."""


class Lines(Silent):
    """A line every ten seconds. `clock` tells the time in seconds."""

    def __init__(self, clock: Callable[[], float] = time.monotonic) -> None:
        self.clock = clock
        self.next = clock() + EVERY

    def through(self, what: str, items: Iterable[T], most: int = 0) -> Iterator[T]:
        for count, it in enumerate(items):
            if count % A_LOOK == 0 and self.clock() >= self.next:
                self.next = self.clock() + EVERY
                self.say(f"{what}: {count:,} of {most:,} requests, {100 * count // most} %" if most else f"{what}: {count:,} requests")
            yield it

    def say(self, line: str) -> None:
        print(f"reyes: {line}", file=sys.stderr, flush=True)


def too_large(row: Iterable[Request]) -> str:
    """Why a renderer that takes so many patches a frame will hardly take a scene with these requests; nothing where that can't be said.
    Polygons aren't counted, since those that face away may be taken out.
    """
    patches = most = 0
    for it in row:
        patches = 0 if it.name == "WorldBegin" else patches
        if it.name not in ("Polygon", "PointsPolygons"):
            patches += culling.patches_of(it)
        most = max(most, patches)
    return f"a frame has {most:,} patches or more, and the renderer takes {culling.MOST_PATCHES:,}" if most > culling.MOST_PATCHES else ""
