"""Bands of a frame: how a frame is cut into them, and how the program draws one, here or on another machine."""
from __future__ import annotations

import os
import re
import subprocess
import threading
from collections.abc import Callable, Iterable, Mapping, Sequence
from contextlib import suppress
from dataclasses import dataclass
from pathlib import Path

from reyes import files, program
from reyes.errors import Trouble

Span = tuple[int, int]
Head = tuple[int, int]  # width and greatest level
HEADER = re.compile(rb"P6\n([0-9]{1,5}) ([0-9]{1,5})\n([0-9]{1,5})\n")
BUCKET = 16
READ = 1 << 16


@dataclass(frozen=True)
class Band:
    """What draws a band: a scene's text in parts, the rows that it has, and the program's further words."""

    text: tuple[bytes, ...]
    rows: Span
    words: tuple[str, ...]


@dataclass(frozen=True)
class Parcel:
    """A band with all that another machine needs for it but the program: the bytes of its shaders and textures by their names."""

    band: Band
    files: Mapping[str, bytes]


class Fault(Exception):
    """A run of the program that ended with another status than 0 (below 0: the signal that ended it), with its notes."""

    def __init__(self, status: int, notes: Sequence[str]) -> None:
        super().__init__(status, tuple(notes))
        self.status = status
        self.notes = tuple(notes)


def cut(rows: Span, missing: Iterable[Span], bands: int) -> list[Span]:
    """Cuts the missing rows of a picture into bands: about so many as would cut all of its rows, each of whole rows of buckets."""
    height = max(1, round((rows[1] - rows[0]) / max(1, bands) / BUCKET)) * BUCKET
    return [(at, min(at + height, end)) for first, end in missing for at in range(first, end, height)]


class Run:
    """A run of the program that draws a band, which another thread may end: `rows_done` counts the rows that have come so far."""

    def __init__(self, band: Band, folder: Path, renderer: Path) -> None:
        self.band = band
        self.process = subprocess.Popen(
            [os.fspath(renderer), "render", "/dev/stdin", *band.words],
            cwd=folder, stdin=subprocess.PIPE, stdout=subprocess.PIPE, stderr=subprocess.PIPE,
        )
        self.data = bytearray()

    def picture(self, told: Callable[[bytearray], None] | None = None) -> bytes:
        """Waits for the band's picture and gives its bytes; `told` is called with the bytes so far whenever some have come. Raises
        Fault where the program gives another status than 0.
        """
        feeder = threading.Thread(target=self._feed, daemon=True)
        with self.process as process:
            feeder.start()
            assert process.stdout is not None and process.stderr is not None
            try:
                while part := os.read(process.stdout.fileno(), READ):
                    self.data += part
                    if told is not None:
                        told(self.data)
                notes = process.stderr.read().decode("utf-8", "replace").splitlines()
                status = process.wait()
            except BaseException:
                process.kill()
                raise
            finally:
                feeder.join()
        if status != 0:
            raise Fault(status, notes)
        return bytes(self.data)

    def end(self) -> None:
        """Ends the program at once; `picture` then raises Fault."""
        with suppress(OSError):
            self.process.kill()

    def _feed(self) -> None:
        assert self.process.stdin is not None
        with suppress(OSError):  # the program has ended, and its status says why
            for part in self.band.text:
                self.process.stdin.write(part)
        with suppress(OSError):
            self.process.stdin.close()


def draw_parcel(parcel: Parcel) -> bytes:
    """Draws a band on the machine where this is called, with the program that is found there, in a folder of its own."""
    with files.folder_of_bytes(parcel.files) as folder:
        return Run(parcel.band, folder, program.ready()).picture()


def body(data: bytes, rows: Span) -> tuple[Head, bytes]:
    """The width and the greatest level of a band's picture, and the bytes of its rows. Raises Trouble where it hasn't these rows."""
    head = HEADER.match(data)
    if head is not None:
        width, height, most = map(int, head.groups())
        if height == rows[1] - rows[0] and len(data) - head.end() == 3 * (2 if most > 255 else 1) * width * height:
            return (width, most), data[head.end() :]
    raise Trouble(f"rows {rows[0]} to {rows[1] - 1}: no picture of this size came", 7)


def joined(head: Head, parts: Iterable[bytes]) -> bytes:
    """The whole picture's bytes, of the rows of its bands in their order."""
    rows = b"".join(parts)
    width, most = head
    height = len(rows) // (3 * (2 if most > 255 else 1) * width)
    return b"P6\n%d %d\n%d\n" % (width, height, most) + rows
