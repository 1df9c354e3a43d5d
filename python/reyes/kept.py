"""Bands that are done, kept beside a picture until it is whole, so that a run which is broken off goes on with those that are missing.

Each is a file in the folder PICTURE.bands, named by a key of all that makes its pixels and by its rows. What has another key is of
another text, and is never joined.
"""
from __future__ import annotations

import re
import shutil
from contextlib import suppress
from pathlib import Path

from reyes import bands, places
from reyes.errors import Trouble, file_trouble

NAME = re.compile(r"([0-9a-f]{64})\.([0-9]{1,5})-([0-9]{1,5})\.ppm")


class Kept:
    """The bands of one picture that are done: `parts` has the bytes of each by its rows, `head` the width and the greatest level.

    Where `folder` is None they are kept in memory alone.
    """

    def __init__(self, folder: Path | None, key: str, rows: bands.Span) -> None:
        self.folder, self.key, self.rows = folder, key, rows
        self.parts: dict[bands.Span, bytes] = {}
        self.head: bands.Head | None = None
        self.is_forgotten = False
        if folder is not None and folder.is_dir():
            self._find(folder)

    def add(self, rows: bands.Span, data: bytes) -> None:
        """Keeps a band's picture. Raises Trouble where it isn't one of these rows, is unlike the others, or can't be written."""
        head, part = bands.body(data, rows)
        if self.head not in (None, head):
            raise Trouble(f"rows {rows[0]} to {rows[1] - 1}: a picture of another width came", 7)
        if self.folder is not None:
            try:
                self.folder.mkdir(exist_ok=True)
            except OSError as fault:
                raise file_trouble(f"{self.folder}: its folder" if isinstance(fault, FileNotFoundError) else self.folder, fault) from fault
            places.replace(self.folder / f"{self.key}.{rows[0]}-{rows[1]}.ppm", data)
        self.head = head
        self.parts[rows] = part

    def missing(self) -> list[bands.Span]:
        """The rows that no band has yet, as spans in their order."""
        if self.is_forgotten:
            return []
        gaps, at = [], self.rows[0]
        for first, end in [*sorted(self.parts), (self.rows[1], self.rows[1])]:
            if at < first:
                gaps.append((at, first))
            at = max(at, end)
        return gaps

    def done(self) -> int:
        """How many rows there are."""
        return self.rows[1] - self.rows[0] if self.is_forgotten else sum(end - first for first, end in self.parts)

    def whole(self) -> bytes:
        """The bytes of the whole picture, once no row is missing."""
        assert self.head is not None and not self.missing()
        return bands.joined(self.head, (part for _, part in sorted(self.parts.items())))

    def forget(self) -> None:
        """Lets go of all that is kept, once the picture is whole, and removes the folder."""
        self.is_forgotten = True
        self.parts.clear()
        if self.folder is not None:
            shutil.rmtree(self.folder, ignore_errors=True)

    def _find(self, folder: Path) -> None:
        """Takes the bands of this key that earlier runs left, as far as they are whole and don't overlap."""
        named = [it for it in map(NAME.fullmatch, (path.name for path in folder.iterdir())) if it is not None and it.group(1) == self.key]
        at = self.rows[0]
        for rows, name in sorted(((int(it.group(2)), int(it.group(3))), it.group()) for it in named):
            if at <= rows[0] < rows[1] <= self.rows[1]:
                with suppress(OSError, Trouble):
                    head, part = bands.body((folder / name).read_bytes(), rows)
                    if self.head in (None, head):
                        self.head, self.parts[rows], at = head, part, rows[1]
