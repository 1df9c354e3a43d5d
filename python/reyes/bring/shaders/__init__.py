"""Shaders in the forms that people have, in the words of this renderer's profile (docs/SHADING.md)."""
from __future__ import annotations

import re
import sys
from collections.abc import Iterator, Mapping, Sequence
from contextlib import contextmanager
from dataclasses import dataclass, field
from pathlib import Path
from typing import Any

from numpy.typing import NDArray

from reyes.bring.changes import Changes
from reyes.bring.shaders.lowering import Parameter, lowered
from reyes.bring.shaders.parser import parsed
from reyes.bring.shaders.preprocess import first_line, preprocessed
from reyes.bring.shaders.printer import file_text
from reyes.bring.shaders.tree import Place, Refused

__all__ = ["Lowered", "Parameter", "lower"]
HEAD = re.compile(rb"(?:[ \t\r\n\f\v]+|//[^\n]*|/\*[^*]*\*+(?:[^/*][^*]*\*+)*/)*")
BLANKS = str.maketrans("\0\f\v\x1a", "    ")
# The trees of texts that are read are at most 250 deep, and a pass takes a few calls for each.
CALLS = 20_000


@dataclass(frozen=True)
class Lowered:
    """A shader that was brought: its text (empty where it can't be brought), its kind, and its parameters by their authors' names.

    `held` is true where a change that it needs is of a kind that the user didn't allow; the text has that change all the same.
    """

    text: bytes
    kind: str
    parameters: dict[str, Parameter] = field(default_factory=dict)
    held: bool = False


def lower(text: bytes, name: str, folders: Sequence[Path], spaces: Mapping[str, NDArray[Any]], changes: Changes) -> Lowered:
    """Writes a shader's text in the words of the profile; one that needs no change comes out byte for byte.

    `name` is the file as it is told to the user, `folders` are searched for what the text includes, and `spaces` are the coordinate
    systems of the scene: for each a matrix of shape (4, 4) that takes a row (x, y, z, 1) of it to world space, as RIB writes matrices.
    Every change is told to `changes` with its place; what can't be brought is told as `X`, and nothing is raised.
    """
    try:
        with _deep():
            return _lowered(text, name, folders, spaces, changes)
    except Refused as fault:
        changes.tell("X", fault.at.file or name, fault.at.line, fault.words)
    except RecursionError:
        changes.tell("X", name, 1, "nested too deep")
    return Lowered(b"", "", {}, True)


@contextmanager
def _deep() -> Iterator[None]:
    """Lets calls go as deep as the trees that are read."""
    before = sys.getrecursionlimit()
    sys.setrecursionlimit(max(before, CALLS))
    try:
        yield
    finally:
        sys.setrecursionlimit(before)


def _lowered(text: bytes, name: str, folders: Sequence[Path], spaces: Mapping[str, NDArray[Any]], changes: Changes) -> Lowered:
    """The same; raises Refused."""
    clean = text.removeprefix(b"\xef\xbb\xbf")
    if b"\r" in clean and b"\n" not in clean:
        clean = clean.replace(b"\r", b"\n")
    line = first_line(clean)
    source = preprocessed(clean, name, folders) if line else clean.decode("latin-1")
    file, liberties = parsed(source.translate(BLANKS), name)
    before = file_text(file)
    made, parameters, work = lowered(file, name, spaces, changes)
    after = file_text(made)
    if line:
        work.tell("=", Place(name, line), "lines of the preprocessor carried out")
    for at, words in liberties:
        work.tell("=", at, words)
    changed = line or liberties or before != after or source != source.translate(BLANKS) or clean != text
    if changed and not work.told:
        work.tell("=", file.shader.at, "written in the words of the profile")
    if not changed:
        return Lowered(text, file.shader.kind, parameters, work.held)
    return Lowered(_head(clean) + _settled(after, name, spaces).encode("ascii", "replace"), file.shader.kind, parameters, work.held)


def _settled(text: str, name: str, spaces: Mapping[str, NDArray[Any]]) -> str:
    """A text that was brought, as it comes out when it is brought once more: a conversion that a pass put in may be needless by now."""
    file, _ = parsed(text, name)
    return file_text(lowered(file, name, spaces, Changes())[0])


def _head(text: bytes) -> bytes:
    """The comments at the head of a text, which say whose it is."""
    found = HEAD.match(text)
    head = found.group().strip() if found else b""
    return head.translate(bytes.maketrans(b"\0\f\v\x1a", b"    ")) + b"\n" if head else b""
