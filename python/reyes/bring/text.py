"""Requests of RIB text: what each one says, where it stands and the bytes that it is written in.

A request that isn't changed is written as it stands, with the comments after it, so a scene that needs no change keeps its bytes.
"""
from __future__ import annotations

import re
from collections.abc import Iterable, Iterator, Sequence
from typing import Any, Union

import numpy as np
from numpy.typing import NDArray

Floats = NDArray[np.float64]
Whole = NDArray[np.int64]
Places = Union[Sequence[int], NDArray[Any]]
Argument = Union[float, str, Floats, "list[str]"]

# No two alternatives within a repetition begin with one character, and a run is taken whole (which `run` is for), so that a bracket without
# its partner costs no more than its text.
TOKEN = re.compile(
    rb'(?P<trivia>(?:\s+|#[^\n]*)+)|(?P<string>"(?:[^"\\]|\\.)*")|(?P<array>\[[^\[\]"#]*\])|(?P<list>\[(?:(?=(?P<run>[^\[\]"#]+))(?P=run)|#[^\n]*\n|"(?:[^"\\]|\\.)*")*\])'
    rb'|(?P<word>[^\s"\[\]#]+)|(?P<bad>.)', re.S)
ITEM = re.compile(rb'"(?:[^"\\]|\\.)*"|#[^\n]*|[^\s"#]+', re.S)
NUMBER = re.compile(rb"[+-]?(\d+\.?\d*|\.\d+)([eE][+-]?\d+)?$")
COMMENT = re.compile(rb"#[^\n]*")
NAME = re.compile(rb"[A-Za-z_]\w*$")
ESCAPE = re.compile(r'\\(\d{1,3}|\r?\n|.)', re.S)
ESCAPED = {"n": "\n", "t": "\t", "r": "\n", '"': '"', "\\": "\\"}
NO_NUMBERS = re.compile(rb"[+-]?(nan|inf|infinity)(\(.*\))?$", re.I)
DIGITS = b"0123456789.eE+- \t\r\n"


class Request:
    """A request: its name, its arguments, its place, the bytes that it stands in (None where it was made or changed) and those after
    its last argument."""

    __slots__ = ("name", "args", "file", "line", "text", "tail", "odd")

    def __init__(self, name: str, args: Iterable[Argument], file: str, line: int, text: bytes | None = None, tail: bytes = b"") -> None:
        self.name, self.args, self.file, self.line, self.text, self.tail = name, list(args), file, line, text, tail
        self.odd: list[str] = []

    def made(self, name: str, *args: Argument) -> "Request":
        """A request in this one's place."""
        return Request(name, args, self.file, self.line)

    def numbers(self, start: int = 0) -> list[float]:
        """The numbers among the arguments from one on, those of arrays too, up to the first string."""
        found: list[float] = []
        for it in self.args[start:]:
            if isinstance(it, float):
                found.append(it)
            elif isinstance(it, np.ndarray):
                found += it.tolist()
            else:
                break
        return found

    def word(self, at: int) -> str | None:
        """The string at a place of the arguments, also where it stands in brackets, or None."""
        it = self.args[at] if at < len(self.args) else None
        if isinstance(it, list):
            it = it[0] if len(it) == 1 else None
        return it if isinstance(it, str) else None

    def array(self, at: int) -> Floats:
        """The numbers of the argument at a place, or no numbers."""
        it = self.args[at] if at < len(self.args) else None
        if isinstance(it, float):
            return np.array([it])
        return it if isinstance(it, np.ndarray) else np.zeros(0)

    def whole(self, at: int) -> list[int]:
        """The whole numbers of the argument at a place."""
        return [int(it) for it in self.array(at)]

    def strings(self, at: int) -> list[str]:
        """The strings of the argument at a place, or none."""
        it = self.args[at] if at < len(self.args) else None
        if isinstance(it, str):
            return [it]
        return it if isinstance(it, list) else []


def unescaped(text: str, odd: list[str]) -> str:
    """A string's value. Where an escape isn't one of the profile's, `odd` gets it."""
    windows = re.match(r"[A-Za-z]:\\\w|\\\\\w", text) is not None and "\\\\" not in text[2:]

    def one(found: re.Match[str]) -> str:
        it = found[1]
        if windows:
            odd.append(found[0])
            return "\\" + it
        if it in ("\n", "\r\n"):
            return ""
        if it in ESCAPED and it != "r":
            return ESCAPED[it]
        odd.append(found[0])
        return chr(int(it, 8) & 255) if re.match(r"[0-7]+$", it) else ESCAPED.get(it, it)

    return ESCAPE.sub(one, text) if "\\" in text else text


def a_number(word: bytes, odd: list[str]) -> float | None:
    """The number that a word is, or None; what no number is, such as `nan`, counts as 0 and is noted in `odd`."""
    if NUMBER.match(word):
        return float(word)
    if NO_NUMBERS.match(word):
        odd.append(word.decode("latin-1"))
        return 0.0
    return None


def an_array(body: bytes, odd: list[str]) -> Argument:
    """The value of what stands between brackets. Numbers and strings together are strings, and what is neither is noted in `odd`."""
    if b"#" in body and b'"' not in body:
        body = COMMENT.sub(b" ", body)
    if not body.translate(None, DIGITS):
        try:
            return np.array([float(it) for it in body.split()])
        except ValueError:
            pass
    values: list[float | str] = []
    for it in ITEM.findall(body):
        if it.startswith(b"#"):
            continue
        value = unescaped(it[1:-1].decode("latin-1"), odd) if it.startswith(b'"') else a_number(it, odd)
        if value is None:
            odd.append(it.decode("latin-1"))
        else:
            values.append(value)
    if any(isinstance(it, str) for it in values):
        return [it if isinstance(it, str) else number(float(it)) for it in values if isinstance(it, (str, float))]
    return np.array([it for it in values if isinstance(it, float)])


def requests(data: bytes, file: str) -> Iterator[Request]:
    """The requests of a text in their order. The first one has no name and holds what stands before the first name."""
    current, begin, last, line, counted = Request("", [], file, 1), 0, 0, 1, 0
    for token in TOKEN.finditer(data):
        kind, text = token.lastgroup, token[0]
        if kind == "trivia":
            continue
        if kind == "word" and NAME.match(text) and not NO_NUMBERS.match(text):
            current.text, current.tail = data[begin:token.start()], data[last:token.start()]
            yield current
            line, counted = line + data.count(b"\n", counted, token.start()), token.start()
            current, begin = Request(text.decode("latin-1"), [], file, line), token.start()
        elif kind == "string":
            current.args.append(unescaped(text[1:-1].decode("latin-1"), current.odd))
        elif kind in ("array", "list"):
            current.args.append(an_array(text[1:-1], current.odd))
        else:
            value = a_number(text, current.odd)
            if value is None:
                current.odd.append(text.decode("latin-1"))
            else:
                current.args.append(value)
        last = token.end()
    current.text, current.tail = data[begin:], data[last:]
    yield current


# ---- back to text
def number(x: float) -> str:
    """A number to a millionth, which is finer than the steps of the profile's numbers."""
    if x != x:
        return "0"
    if abs(x) >= 1e15:
        return "32767" if x > 0 else "-32767"
    text = f"{x:.6f}".rstrip("0").rstrip(".")
    return "0" if text == "-0" else text


def quoted(text: str) -> str:
    """A string with its quotes and the profile's escapes; a character that it can't hold becomes `_`."""
    plain = "".join(it if " " <= it <= "~" or it in "\n\t" else "_" for it in text)
    return '"' + plain.replace("\\", "\\\\").replace('"', '\\"') + '"'


def argument(value: Argument) -> str:
    """An argument as it is written."""
    if isinstance(value, str):
        return quoted(value)
    if isinstance(value, np.ndarray):
        return "[" + " ".join(map(number, value.ravel().tolist())) + "]"
    if isinstance(value, list):
        return "[" + " ".join(map(quoted, value)) + "]"
    return number(value)


def written(request: Request) -> bytes:
    """The bytes of a request with all that stands after it up to the next one."""
    if request.text is not None:
        return request.text
    body = " ".join([request.name, *map(argument, request.args)]).encode("latin-1")
    tail = request.tail if request.tail[:1].isspace() else b"\n" + request.tail
    return body + tail


def after(row: Sequence[Request], old: Request) -> list[Request]:
    """Requests in the place of an old one: the last of them gets what stood after it, where that is more than white space a comment."""
    found = list(row)
    if found and found[-1].text is None:
        found[-1].tail = old.tail
    elif not found and b"#" in old.tail:
        found = [Request("", [], old.file, old.line, old.tail)]
    return found
