"""Coordinate systems that the scene names: the profile knows its own five alone, and a matrix stands for each other."""
from __future__ import annotations

import re
from collections.abc import Callable
from dataclasses import replace
from functools import partial
from typing import Any

import numpy as np
from numpy.typing import NDArray

from reyes.bring.shaders import values
from reyes.bring.shaders.table import given, lowers
from reyes.bring.shaders.tree import (
    Call, Cast, Do, Expression, If, Infix, Name, Number, Parts, Place, Prefix, Refused, Set, String, block,
)
from reyes.bring.shaders.types import type_of
from reyes.bring.shaders.work import LEFT, NEAR, SAME, Work

KNOWN = ("current", "camera", "world", "object", "shader")
OTHERS = {"eye": "camera", "": "current"}
# A name that a string of the text can have as it is, and the most of them that a string is compared with.
PRINTED = re.compile(r"[ !#-\[\]-~]+")
MOST = 32
TYPES = {"transform": "point", "vtransform": "vector", "ntransform": "normal"}


def literal(work: Work, it: String) -> String:
    """A space of the profile for one that the scene doesn't name."""
    if it.words in KNOWN:
        return it
    if it.words in OTHERS:
        work.tell(SAME, it.at, f"the space \"{it.words}\" by its name \"{OTHERS[it.words]}\"")
        return String(f'"{OTHERS[it.words]}"', at=it.at)
    work.tell(LEFT, it.at, f"the space \"{it.words}\", which the scene doesn't name, taken as \"shader\"")
    return String('"shader"', at=it.at)


def from_space(work: Work, it: Cast | Parts, found: Expression) -> Expression:
    """A value that is given in a space, after its type."""
    assert it.space is not None
    name = it.space.words
    if name in work.spaces and name not in KNOWN:
        return Cast(it.type, String('"world"'), by_matrix(work, found, it.type, name, True, it.at), at=it.at)
    space = literal(work, it.space)
    if isinstance(found, Parts) and found.space is None:
        return replace(found, type=it.type, space=space)
    return Cast(it.type, space, found, at=it.at)


def by_matrix(work: Work, it: Expression, kind: str, name: str, to_world: bool, at: Place) -> Expression:
    """A value between world space and a space of the scene, by the space's matrix."""
    matrix = np.asarray(work.spaces[name], dtype=float)
    if matrix.shape != (4, 4) or not np.all(np.isfinite(matrix)) or abs(np.linalg.det(matrix)) < 1e-12:
        raise Refused(at, f"the space \"{name}\", whose matrix can't be turned back")
    if not to_world:
        matrix = np.linalg.inv(matrix)
    rough = bool(np.any((np.abs(matrix) > 1e-9) & (np.abs(matrix) < 1 / 64)))
    work.tell(NEAR if rough else SAME, at, f"the space \"{name}\" by its matrix" + (", whose small numbers are rounded to 1/65536" if rough else ""))
    if kind == "normal":
        matrix = np.linalg.inv(matrix).T
        matrix[3] = 0.0
        matrix[:, 3] = (0.0, 0.0, 0.0, 1.0)
    held = work.temporary("place", "point" if kind == "point" else "vector", it, at)
    parts = tuple(Call(f"{axis}comp", (held,), at=at) for axis in "xyz")
    if kind == "point" and not np.allclose(matrix[:, 3], (0.0, 0.0, 0.0, 1.0), atol=1e-9):
        return _divided(work, matrix, parts, at)
    return Parts(kind, None, tuple(_sum(matrix[:, column], parts, kind == "point") for column in range(3)), at=at)


def _divided(work: Work, matrix: NDArray[Any], parts: tuple[Expression, ...], at: Place) -> Expression:
    """A point by a matrix of a perspective. What is divided is kept small, since numbers end at 32768."""
    weight = work.temporary("weight", "float", _sum(matrix[:, 3], parts, True), at)
    found: list[Expression] = []
    for column in range(3):
        size = max(1.0, float(np.max(np.abs(matrix[:, column])) / np.max(np.abs(matrix[:, 3]))))
        quotient: Expression = Infix("/", _sum(matrix[:, column] / size, parts, True), weight, at=at)
        found.append(quotient if size == 1.0 else Infix("*", quotient, _number(size), at=at))
    return Parts("point", None, tuple(found), at=at)


def _sum(row: NDArray[Any], parts: tuple[Expression, ...], moved: bool) -> Expression:
    """The sum of three parts by a matrix's column, with its last number where places are meant."""
    numbers = [float(one) for one in row]
    found: Expression | None = None
    terms: list[tuple[float, Expression | None]] = [*zip(numbers, parts), (numbers[3] if moved else 0.0, None)]
    for factor, part in terms:
        if abs(factor) < 1e-9:
            continue
        size = abs(factor)
        term: Expression = _number(size) if part is None else part if abs(size - 1) < 1e-9 else Infix("*", _number(size), part)
        if found is None:
            found = Prefix("-", term) if factor < 0 else term
        else:
            found = Infix("-" if factor < 0 else "+", found, term)
    return found if found is not None else Number("0")


def _number(size: float) -> Number:
    """A number of the text."""
    return Number(f"{size:.9f}".rstrip("0").rstrip("."))


@lowers("transform", "vtransform", "ntransform")
def transform(work: Work, it: Call, want: str) -> Expression:
    """A value from one space to another; the first is "current" where one alone is named."""
    given(it, 2, 3)
    kind = TYPES[it.name]
    if any(type_of(work, one) == "matrix" for one in it.arguments):
        raise Refused(it.at, "matrices")
    found = values.converted(work, it.arguments[-1], kind)
    names = [values.written_out(work, one) for one in it.arguments[:-1]]
    if any(type_of(work, one) != "string" for one in names):
        raise Refused(it.at, f"`{it.name}` of what is no space")
    if not all(isinstance(one, String) for one in names):
        return _by_name(work, it.name, kind, names, found, it.at)
    return _between(work, it.name, kind, [one for one in names if isinstance(one, String)], found, it.at)


def _between(work: Work, name: str, kind: str, spaces: list[String], found: Expression, at: Place) -> Expression:
    """A value between spaces whose names are written out."""
    source, target = (spaces[0] if len(spaces) == 2 else None), spaces[-1]
    if source is not None and source.words in work.spaces and source.words not in KNOWN:
        found = by_matrix(work, found, kind, source.words, True, at)
        source = String('"world"', at=at)
    elif source is not None:
        source = literal(work, source)
    if target.words in work.spaces and target.words not in KNOWN:
        if source is None or source.words != "world":
            row = (source, String('"world"'), found) if source is not None else (String('"world"'), found)
            found = Call(name, row, at=at)
        return by_matrix(work, found, kind, target.words, False, at)
    target = literal(work, target)
    return Call(name, (source, target, found) if source is not None else (target, found), at=at)


def _by_name(work: Work, name: str, kind: str, spaces: list[Expression], found: Expression, at: Place) -> Expression:
    """A value between spaces of which one is a string that isn't written out: whatever spaces there are, by comparing their names."""
    if len(spaces) == 2:
        from_name = spaces[0]
        inner = found if isinstance(from_name, String) and from_name.words == "current" else _to_current(work, kind, from_name, found, at)
        return _by_name(work, name, kind, spaces[1:], inner, at) if not isinstance(spaces[1], String) else _between(
            work, name, kind, [spaces[1]], inner, at)
    work.tell(SAME, at, "a space whose name isn't written out found by comparing it with all names")
    held = values.named(work, found)
    result = work.temporary("there", kind, Call(name, (String('"shader"'), held), at=at), at)
    for one in _names(work, at):
        if one != "shader":
            _when(work, spaces[0], one, result, partial(_between, work, name, kind, [String(f'"{one}"')], held, at), at)
    return result


def _names(work: Work, at: Place) -> list[str]:
    """The names of spaces that a string is compared with: the profile's, and the scene's where they aren't too many."""
    own = sorted(it for it in work.spaces if it not in KNOWN and PRINTED.fullmatch(it))
    if len(own) > MOST:
        work.tell(LEFT, at, f"a string is compared with the renderer's own spaces alone: the scene names {len(own)}")
        own = []
    return [*KNOWN, *own]


def _to_current(work: Work, kind: str, space: Expression, found: Expression, at: Place) -> Expression:
    """A value from a space to the current one."""
    held = values.named(work, found)
    if isinstance(space, String):
        return from_space(work, Cast(kind, space, held, at=at), held)
    result = work.temporary("here", kind, Cast(kind, String('"shader"'), held, at=at), at)
    for one in _names(work, at):
        if one != "shader":
            cast = Cast(kind, String(f'"{one}"'), held, at=at)
            _when(work, space, one, result, partial(from_space, work, cast, held), at)
    return result


def _when(work: Work, space: Expression, name: str, result: Name, make: Callable[[], Expression], at: Place) -> None:
    """Sets a variable where a string is a space's name."""
    found, rows = work.valued(make)
    test = Infix("==", space, String(f'"{name}"'), at=at)
    work.put(If(test, block(*rows, Do(Set("=", result, found, at=at), at=at), at=at), None, at=at))
