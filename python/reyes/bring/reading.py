"""Files as people have them: text, gzip and binary RIB, and where archives, shaders and textures are looked for."""
from __future__ import annotations

import gzip
import io
import re
import zlib
from collections.abc import Iterable, Sequence
from pathlib import Path

from . import binary
from .telling import Silent
from .text import Request, requests

GREATEST = 1 << 28
CONTROLS = bytes.maketrans(b"\0\x0b\x0c\x1a", b"    ")
ODD_NUMBERS = re.compile(rb"[+-]?\d\.#(?:IND|QNAN|SNAN|INF)\w*")


class Unreadable(Exception):
    """A file that can't be read as RIB; the message says why."""


def unpacked(data: bytes) -> bytes:
    """A file's bytes without gzip's packing. `Unreadable` where they are damaged or too many."""
    if data[:2] != b"\x1f\x8b":
        return data
    try:
        with gzip.GzipFile(fileobj=io.BytesIO(data)) as it:
            text = it.read(GREATEST + 1)
    except (OSError, EOFError, zlib.error):
        raise Unreadable("a damaged gzip file") from None
    if len(text) > GREATEST:
        raise Unreadable(f"more than {GREATEST} bytes")
    return text


def plain(data: bytes) -> tuple[bytes, list[str]]:
    """RIB as text that `requests` reads, and in words what that took. `Unreadable` where it can't be had."""
    told = []
    text = unpacked(data)
    if text is not data:
        told.append("gzip unpacked")
    if binary.is_binary(text):
        try:
            text = binary.decoded(text)
        except binary.Broken as it:
            raise Unreadable(str(it)) from None
        told.append("binary RIB turned into text")
    if text.startswith(b"\xef\xbb\xbf"):
        text = text[3:]
        told.append("a byte order mark taken out")
    if b"\r" in text and b"\n" not in text:
        text = text.replace(b"\r", b"\n")
        told.append("carriage returns turned into line feeds")
    if text.translate(None, b"\0\x0b\x0c\x1a") != text:
        text = text.translate(CONTROLS)
        told.append("control characters turned into spaces")
    if b".#" in text:
        text = ODD_NUMBERS.sub(b" nan ", text)
    return text, told


def load(path: Path, name: str, telling: Silent = Silent()) -> tuple[list[Request], list[str]]:
    """The requests of a file, and in words what reading it took. `Unreadable` where it can't be read."""
    try:
        if path.stat().st_size > GREATEST:
            raise Unreadable(f"more than {GREATEST} bytes")
        data = path.read_bytes()
    except OSError as it:
        raise Unreadable(it.strerror or "can't be read") from None
    text, told = plain(data)
    return list(telling.through(f"reading {name}", requests(text, name))), told


class Folders:
    """Where files are looked for: beside the scene, along `Option "searchpath"`, and in folders that the user names."""

    def __init__(self, scene: Path, more: Sequence[Path] = ()) -> None:
        self.base, self.more = scene.parent, list(more)
        self.paths: dict[str, list[Path]] = {}

    def option(self, kind: str, words: Iterable[str]) -> None:
        """Takes an `Option "searchpath" KIND "A:B:&"`: `&` is what was said before, `@` the standard's own folders."""
        before, found = self.paths.get(kind, []), []
        for word in re.split(r"(?<!^[A-Za-z])[:;](?![\\])", ":".join(words)):
            if word == "&":
                found += before
            elif word and word != "@":
                found.append(self.base / word.replace("\\", "/"))
        self.paths[kind] = found[:64]

    def all(self, kind: str) -> list[Path]:
        """The folders for one kind of file, in the order in which they are tried."""
        return list(dict.fromkeys([self.base, *self.paths.get(kind, []), *self.paths.get("resource", []), *self.more]))

    def find(self, kind: str, name: str, endings: Sequence[str] = ("",)) -> Path | None:
        """The first file of a name: as it stands, and without its folders; with each of the endings. None where there is none."""
        name = name.replace("\\", "/")
        if not name or "\0" in name or len(name) > 1024:
            return None
        for word in dict.fromkeys([name, name.rsplit("/", 1)[-1]]):
            for folder in self.all(kind):
                for ending in endings:
                    path = folder / (word + ending)
                    if is_file(path):
                        return path
        return None


def is_file(path: Path) -> bool:
    try:
        return path.is_file()
    except OSError:
        return False
