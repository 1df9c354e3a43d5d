"""The tokens of a shader's text as its author wrote it, with places; lines that a preprocessor left tell which file goes on."""
from __future__ import annotations

import re
from collections.abc import Iterator
from typing import NamedTuple

from reyes.bring.shaders.tree import Place, Refused

TOKEN = re.compile(
    r"[ \t\r\n\f\v]+|//[^\n]*|/\*[^*]*\*+(?:[^/*][^*]*\*+)*/|(?P<mark_of_line>^[ \t]*#[^\n]*)|(?P<name>[A-Za-z_][A-Za-z0-9_]*)"
    r'|(?P<string>"[^"\\]*(?:\\[\x00-\xff][^"\\]*)*")'
    r"|(?P<number>(?:[0-9]+\.?[0-9]*|\.[0-9]+)(?:[eE][-+]?[0-9]+)?)"
    r"|(?P<mark>[-+*/]=|[<>=!]=|&&|\|\||[-+*/^.<>=!?:;,(){}\[\]])|(?P<bad>[\x00-\xff])",
    re.MULTILINE,
)
WHERE = re.compile(r'\s*#\s*(?:line\s+)?([0-9]{1,9})\s+"([^"]*)"')


class Token(NamedTuple):
    """A token: its kind ("name", "string", "number" or "mark", "end" after the last), its text and its place."""

    kind: str
    text: str
    at: Place


def tokens(text: str, name: str) -> Iterator[Token]:
    """The tokens of a text of that file, and one of the kind "end". Raises Refused where no token begins."""
    file, line = name, 1
    for found in TOKEN.finditer(text):
        kind, part, at = found.lastgroup, found.group(), Place(file, line)
        if kind == "mark_of_line":
            where = WHERE.match(part)
            if where:
                line, file = int(where[1]) - 1, name if where[2].startswith("<") else where[2].rpartition("/")[2]
            elif not part.strip(" \t#").startswith(("pragma", "ident")) and part.strip(" \t#"):
                raise Refused(at, f"a line of the preprocessor in between: {part.strip()[:40]}")
        elif kind == "bad":
            raise Refused(at, _fault(part))
        elif kind is not None:
            yield Token(kind, part, at)
        line += part.count("\n")
    yield Token("end", "", Place(file, line))


def _fault(byte: str) -> str:
    """What is wrong where no token begins with a byte."""
    if byte == '"':
        return "a string that isn't ended"
    shown = byte if " " < byte < "\x7f" else f"the byte {ord(byte)}"
    return f"{shown} begins no word of the Shading Language"
