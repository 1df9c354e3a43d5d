"""The tokens and requests of a RIB text, each with its place, as the renderer reads them (docs/RIB.md, "The text").

Nothing here raises: where the renderer would find a fault of the text, a token of the kind "bad" stands, and reading goes on.
"""
from __future__ import annotations

import re
from collections.abc import Iterator
from dataclasses import dataclass
from functools import cached_property

TOKEN = re.compile(
    rb'[ \t\r\n]+|#[^\n]*|(?P<name>[A-Za-z_][A-Za-z0-9_]*)|(?P<string>"[^"\\]*(?:\\[\x00-\xff][^"\\]*)*(?P<end>"?))'
    rb'|(?P<number>[-+]?(?:[0-9]+\.?[0-9]*|\.[0-9]+)(?:[eE][-+]?[0-9]+)?(?![A-Za-z0-9_.+-]))|(?P<open>\[)|(?P<close>\])'
    rb'|(?P<wrong>[-+.0-9][A-Za-z0-9_.+-]*)|(?P<other>[\x00-\xff])'
)
# Runs of bytes between requests: names are found without looking at each number. An exponent is no name.
PART = re.compile(rb'[^A-Za-z_"#]+|#[^\n]*|"[^"\\]*(?:\\[\x00-\xff][^"\\]*)*"?|(?<=[0-9.])[eE][-+0-9]*|(?P<name>[A-Za-z_][A-Za-z0-9_]*)')
ESCAPE = re.compile(rb"\\([\x00-\xff])")
ESCAPES = {b'"': b'"', b"\\": b"\\", b"n": b"\n", b"t": b"\t", b"\n": b""}
IN_STRING = re.compile(rb"[\x20-\x7e\t\n]*")


@dataclass(frozen=True)
class Token:
    """A token: its kind ("name", "number", "string", "open", "close" or "bad"), its bytes as text, and its place.

    `value` is a number's value, a string's text without its quotes and escapes, and the code of a bad token (L1 to L4); else the text.
    `start` and `end` are offsets in bytes, `line` and `column` count from 1, columns in bytes.
    """

    kind: str
    text: str
    value: float | str
    start: int
    end: int
    line: int
    column: int


@dataclass(frozen=True)
class Request:
    """A request: its name, and the bytes from its name up to the next request's name. What stands before the first name is a request
    without a name, where any token stands there.
    """

    name: str
    start: int
    end: int
    line: int
    column: int
    data: bytes

    @cached_property
    def arguments(self) -> list[Token]:
        """The tokens after the name."""
        found = tokens(self.data, self.start, self.end, self.line, self.column)
        return list(found)[1 if self.name else 0 :]


def tokens(data: bytes, start: int = 0, end: int | None = None, line: int = 1, column: int = 1) -> Iterator[Token]:
    """The tokens of a text, or of a part of it whose first byte has the given line and column."""
    row = start - (column - 1)
    for found in TOKEN.finditer(data, start, len(data) if end is None else end):
        kind = found.lastgroup if found.lastgroup != "end" else "string"
        text = found.group()
        if kind is not None:
            at = found.start()
            kind, value = _value(kind, text, bool(found.group("end")))
            yield Token(kind, text.decode("latin-1"), value, at, found.end(), line, at - row + 1)
        lines = text.count(b"\n")
        if lines:
            line += lines
            row = found.start() + text.rindex(b"\n") + 1


def requests(data: bytes) -> Iterator[Request]:
    """The requests of a text in their order; their arguments are read when they are asked for."""
    begun, name, line, row, place = 0, "", 1, 0, (1, 1)
    for found in PART.finditer(data):
        text = found.group()
        if found.group("name") is not None:
            if name or any(True for _ in tokens(data, begun, found.start())):
                yield Request(name, begun, found.start(), *place, data)
            begun, name, place = found.start(), text.decode("ascii"), (line, found.start() - row + 1)
        lines = text.count(b"\n")
        if lines:
            line += lines
            row = found.start() + text.rindex(b"\n") + 1
    if name or any(True for _ in tokens(data, begun)):
        yield Request(name, begun, len(data), *place, data)


def quoted(text: str) -> str:
    """A text as a string of a RIB text, in quotes; raises ValueError for what no string can hold, and for what is no text."""
    raw = text.encode("ascii") if isinstance(text, str) and text.isascii() else b"\x00"
    if not IN_STRING.fullmatch(raw):
        raise ValueError(f"{text!r}: a RIB string holds the characters 32 to 126, tab and line feed")
    return '"' + text.replace("\\", "\\\\").replace('"', '\\"').replace("\n", "\\n").replace("\t", "\\t") + '"'


def _value(kind: str, text: bytes, closed: bool) -> tuple[str, float | str]:
    """Kind and value of a token by the group that found it."""
    if kind == "number":
        return kind, float(text)
    if kind == "string":
        if not closed:
            return "bad", "L2" if IN_STRING.fullmatch(text) else "L1"
        return _string(text[1:-1])
    if kind in ("wrong", "other"):
        return "bad", "L4" if kind == "wrong" else "L1"
    return kind, text.decode("latin-1")


def _string(body: bytes) -> tuple[str, str]:
    if any(found.group(1) not in ESCAPES for found in ESCAPE.finditer(body)):
        return "bad", "L3"
    if not IN_STRING.fullmatch(body):
        return "bad", "L1"
    return "string", ESCAPE.sub(lambda found: ESCAPES[found.group(1)], body).decode("ascii")
