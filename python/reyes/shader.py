"""The tokens of a shader's text with their places, and what the text declares (docs/SHADING.md, "Tokens" and "Grammar").

Nothing here raises: where the renderer would find a fault of the text, a token of the kind "bad" stands, and reading goes on.
"""
from __future__ import annotations

import re
from collections.abc import Iterator, Sequence
from dataclasses import dataclass

TOKEN = re.compile(
    r"[ \t\r\n]+|//[^\n]*|/\*[^*]*\*+(?:[^/*][^*]*\*+)*/|(?P<name>[A-Za-z_][A-Za-z0-9_]*)"
    r'|(?P<string>"[^"\\]*(?:\\[\x00-\xff][^"\\]*)*")'
    r"|(?P<number>(?:[0-9]+\.?[0-9]*|\.[0-9]+)(?:[eE][-+]?[0-9]+)?(?![A-Za-z0-9_.]))"
    r"|(?P<mark>[-+*/]=|[<>=!]=|&&|\|\||[-+*^.<>=!?:;,(){}]|/(?!\*))|(?P<bad>[\x00-\xff])"
)
KINDS = ("surface", "displacement", "light", "volume")
TYPES = ("float", "color", "point", "vector", "normal", "string")
CLASSES = ("uniform", "varying")


@dataclass(frozen=True)
class Token:
    """A token: its kind ("name", "number", "string", "mark" or "bad"), its text as it stands, and its place.

    `start` and `end` are offsets in bytes, `line` and `column` count from 1, columns in bytes.
    """

    kind: str
    text: str
    start: int
    end: int
    line: int
    column: int


@dataclass(frozen=True)
class Parameter:
    """A parameter of a shader: its class and type, its default as it stands, and the line of its name."""

    detail: str
    type: str
    name: str
    default: str
    line: int


@dataclass(frozen=True)
class Function:
    """A function: the type of its value, its name, the offsets of its text, and the line of its name."""

    type: str
    name: str
    start: int
    end: int
    line: int


@dataclass(frozen=True)
class Shader:
    """What a text declares: the shader's kind and name, its parameters, and the functions before it; `body` has the offsets of the
    shader's outermost block, braces included.
    """

    kind: str
    name: str
    parameters: tuple[Parameter, ...]
    functions: tuple[Function, ...]
    body: tuple[int, int]


def tokens(data: bytes) -> Iterator[Token]:
    """The tokens of a shader's text."""
    text = data.decode("latin-1")
    line, row = 1, 0
    for found in TOKEN.finditer(text):
        at, part = found.start(), found.group()
        if found.lastgroup is not None:
            yield Token(found.lastgroup, part, at, found.end(), line, at - row + 1)
        lines = part.count("\n")
        if lines:
            line += lines
            row = at + part.rindex("\n") + 1


def strings(data: bytes) -> set[str]:
    """The strings of a shader's text, without quotes: every texture that it names is among them."""
    return {re.sub(r"\\([\s\S])", r"\1", it.text[1:-1]) for it in tokens(data) if it.kind == "string"}


def declared(data: bytes) -> Shader | None:
    """What the text declares, or None where it isn't the text of a shader."""
    found, at = list(tokens(data)), 0
    functions: list[Function] = []
    while at + 2 < len(found):
        first, second = found[at], found[at + 1]
        begin = _closing(found, at + 2, "(", ")")
        end = _closing(found, begin + 1, "{", "}") if begin else 0
        if not end or second.kind != "name":
            return None
        if first.text in KINDS:
            body = (found[begin + 1].start, found[end].end)
            return Shader(first.text, second.text, tuple(_parameters(data, found[at + 3 : begin])), tuple(functions), body)
        if first.text not in TYPES:
            return None
        functions.append(Function(first.text, second.text, first.start, found[end].end, second.line))
        at = end + 1
    return None


def _closing(found: Sequence[Token], at: int, opening: str, closing: str) -> int:
    """The place of the token that closes the bracket at a place, or 0."""
    if at >= len(found) or found[at].text != opening:
        return 0
    depth = 0
    for place in range(at, len(found)):
        if found[place].kind == "mark":
            depth += (found[place].text == opening) - (found[place].text == closing)
        if depth == 0:
            return place
    return 0


def _parameters(data: bytes, found: Sequence[Token]) -> Iterator[Parameter]:
    """The parameters of a list such as `uniform float a = 1, b = 2; color c = 0`, by its tokens."""
    detail, kind, at = "uniform", "", 0
    while at < len(found):
        it = found[at]
        if it.text in CLASSES:
            detail = it.text
        elif it.text in TYPES:
            kind = it.text
        elif it.text == ";":
            detail, kind = "uniform", ""
        elif it.kind == "name" and at + 1 < len(found) and found[at + 1].text == "=":
            end = _default_end(found, at + 2)
            text = data[found[at + 2].start : found[end - 1].end] if end > at + 2 else b""
            yield Parameter(detail, kind, it.text, text.decode("latin-1"), it.line)
            at = end - 1
        at += 1


def _default_end(found: Sequence[Token], at: int) -> int:
    """The place after a default: that of the comma or semicolon outside of parentheses, or the end."""
    depth = 0
    while at < len(found) and not (depth == 0 and found[at].text in (",", ";")):
        depth += (found[at].text == "(") - (found[at].text == ")")
        at += 1
    return at
