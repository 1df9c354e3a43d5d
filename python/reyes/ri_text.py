"""How `reyes.ri` writes: the text so far, and what is checked of names, types and numbers of values."""
from __future__ import annotations

import difflib
import math
from collections.abc import Mapping, Sequence
from pathlib import Path
from typing import Any

import numpy as np

from reyes import rib
from reyes.errors import Trouble

Values = Any  # a number, a string, a sequence of these, or an array
Parameters = Mapping[str, Values]
CLASSES = ("constant", "uniform", "varying", "vertex", "facevarying")
WIDTHS = {"float": 1, "integer": 1, "string": 1, "pair": 2, "color": 3, "point": 3, "vector": 3, "normal": 3}
QUADRIC = {"uniform": 1, "varying": 4, "vertex": 4, "facevarying": 4}
NUMBERS = (
    "Ka Kd Ks Kr roughness intensity coneangle conedeltaangle beamdistribution mindistance maxdistance distance amplitude fov"
).split()
START: dict[str, tuple[str, str]] = {
    **dict.fromkeys(NUMBERS, ("uniform", "float")),
    **dict.fromkeys(("lightcolor", "specularcolor", "background"), ("uniform", "color")),
    **dict.fromkeys(("from", "to"), ("uniform", "point")),
    **dict.fromkeys(("Cs", "Os"), ("varying", "color")),
    **dict.fromkeys(("s", "t"), ("varying", "float")),
    "texturename": ("uniform", "string"),
    "st": ("varying", "pair"),
    "N": ("varying", "normal"),
    "P": ("vertex", "point"),
}


class Writing:
    """A text that is being written: its lines, the declarations, lights and objects so far, and the file that it goes to."""

    def __init__(self, target: Path | None) -> None:
        self.target = target
        self.lines: list[str] = []
        self.objects: list[list[str]] = []
        self.around: list[str] | None = None
        self.declared = dict(START)
        self.lights = 0


now: list[Writing] = []


def current() -> Writing:
    """The text that is being written. Raises Trouble where none was begun."""
    if not now:
        raise Trouble("ri.Begin() comes before any other call")
    return now[0]


def line(text: str) -> None:
    """Writes a line."""
    current().lines.append(text)


def request(name: str, *words: str) -> None:
    """Writes a request."""
    line(" ".join([name, *words]))


def number(value: float) -> str:
    """A number as the text has it. Raises Trouble for what is none."""
    try:
        found = float(value)
    except (TypeError, ValueError, OverflowError):
        found = math.nan
    if not math.isfinite(found):
        raise Trouble(f"S3: {value!r} is no number")
    return f"{found:.10g}"


def numbers(*values: float) -> list[str]:
    """Numbers as the text has them."""
    return [number(it) for it in values]


def whole(value: float) -> str:
    """A whole number as the text has it. Raises Trouble for what is none."""
    if number(value) != number(int(value)):
        raise Trouble(f"S3: {value!r} is no whole number")
    return str(int(value))


def one_of(name: str, word: str, *known: str) -> str:
    """A word in quotes. Raises Trouble where it isn't one of those that a request knows."""
    if word not in known:
        near = difflib.get_close_matches(word, known, 1)
        raise Trouble(f"S3: {name} {word!r}: it is one of {', '.join(known)}" + (f"; the nearest is {near[0]!r}" if near else ""))
    return rib.quoted(word)


def flat(given: Any, count: int | None) -> list[float]:
    """All numbers of a value, however they are nested, in their order. Raises Trouble where they aren't so many."""
    parts = given if isinstance(given, (tuple, list)) else (given,)
    try:
        found: list[float] = [it for part in parts for it in np.asarray(part, dtype=float).ravel().tolist()]
    except (TypeError, ValueError):
        found = [it for part in parts for it in (flat(part, None) if isinstance(part, (tuple, list)) else [math.nan])]
    if count is not None and len(found) != count:
        raise Trouble(f"S3: {len(found)} numbers stand where {count} are wanted")
    return found


def values(given: Values) -> list[float] | list[str]:
    """The values of a parameter: strings, or numbers."""
    parts = [given] if isinstance(given, str) else given
    if isinstance(parts, (list, tuple)) and parts and all(isinstance(it, str) for it in parts):
        return [str(it) for it in parts]
    return flat(parts, None)


def array(found: Sequence[float] | Sequence[str]) -> str:
    """Values in brackets."""
    return f"[{' '.join(rib.quoted(it) if isinstance(it, str) else number(it) for it in found)}]"


def listed(name: str, parameters: Parameters | None, named: Parameters) -> list[str]:
    """The parameters of a shader or a projection. Raises Trouble for an unknown name, and for values that don't fit its type."""
    words = []
    for token, given in {**(parameters or {}), **named}.items():
        kind = declaration(name, token)[1]
        found = _fitting(name, token, kind, given)
        if len(found) != WIDTHS[kind]:
            raise Trouble(f"S5: {name} {token!r}: {len(found)} values stand where {WIDTHS[kind]} make a {kind}")
        words += [rib.quoted(token), array(found)]
    return words


def primitive(name: str, words: Sequence[str], parameters: Parameters | None, named: Parameters, counts: Mapping[str, int]) -> None:
    """Writes a primitive. Raises Trouble for an unknown name, values that don't fit its type, and where they aren't as many as its class
    asks for (`counts`; 0 or none where that isn't looked at here).
    """
    variables = {**(parameters or {}), **named}
    if ("P" in {it.split()[-1] for it in variables if it.split()}) == (counts is QUADRIC):
        raise Trouble(f"S3: {name}: " + ("a quadric takes no P" if counts is QUADRIC else "it needs its points, P"))
    for token, given in variables.items():
        detail, kind = declaration(name, token)
        found = _fitting(name, token, kind, given)
        wanted = counts["vertex"] if token.split()[-1] == "P" else 1 if detail == "constant" else counts.get(detail, 0)
        if wanted and len(found) != wanted * WIDTHS[kind] or len(found) % WIDTHS[kind]:
            raise Trouble(f"G5: {name} {token!r}: {len(found) / WIDTHS[kind]:g} values stand where {wanted or 'others'} are wanted ({detail} {kind})")
        words = [*words, rib.quoted(token), array(found)]
    request(name, *words)


def points_of(name: str, parameters: Parameters | None, named: Parameters) -> int:
    """How many points a primitive's P has; 0 where it has none."""
    for token, given in {**(parameters or {}), **named}.items():
        if token.split()[-1:] == ["P"]:
            return len(values(given)) // 3
    return 0


def declaration(name: str, token: str) -> tuple[str, str]:
    """The class and type of a token: a declared name, or a declaration in line. Raises Trouble where it is neither."""
    known = current().declared
    if token in known:
        return known[token]
    words = token.split()
    kind = ["uniform", *words] if len(words) == 2 else words
    if len(kind) == 3 and kind[0] in CLASSES and kind[1] in WIDTHS and kind[1] != "pair":
        return kind[0], kind[1]
    if len(kind) == 3:
        raise Trouble(f"S2: {name} {token!r}: no class or type is called so")
    near = difflib.get_close_matches(token, known, 1)
    what = "is neither declared nor a declaration such as 'uniform float Kb'"
    raise Trouble(f"S4: {name} {token!r}: it {what}" + (f"; the nearest known name is {near[0]!r}" if near else ""))


def _fitting(name: str, token: str, kind: str, given: Values) -> list[float] | list[str]:
    """The values of a token. Raises Trouble for numbers where strings are wanted, and the other way round."""
    found = values(given)
    if bool(found) and isinstance(found[0], str) != (kind == "string"):
        raise Trouble(f"S3: {name} {token!r}: a {kind} isn't made of {'strings' if isinstance(found[0], str) else 'numbers'}")
    return found
