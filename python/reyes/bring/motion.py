"""Motion blocks as the profile has them: two times, and in them transformations, patches or meshes."""
from __future__ import annotations

from collections.abc import Callable, Sequence

import numpy as np

from . import polygons, triangles, variables
from .changes import LEFT, NEAR, SAME
from .matrices import unit
from .omissions import PRIMITIVES
from .state import MOVES
from .text import Request
from .variables import Kind, Variable
from .work import Work

Lower = Callable[[Request], "list[Request]"]
FACES = ("Polygon", "PointsPolygons")


def block(work: Work, row: Sequence[Request], lower: Lower) -> list[Request]:
    """A whole motion block, its begin and end included, in the profile's words; the same requests where nothing is to be changed."""
    begin, body, end = row[0], list(row[1:-1]), row[-1]
    times = begin.numbers()
    if not body or len(times) != len(body):
        return list(row)
    if len(body) > 2:
        if not work.tell(NEAR, begin, "of more than two times of a motion the first and the last taken"):
            return list(row)
        body, times = [body[0], body[-1]], [times[0], times[-1]]
    name = body[0].name
    still = len(body) == 1 or any(it.name != name for it in body) or name not in MOVES | PRIMITIVES or name == "Identity"
    if still:
        words = f"motion of `{name}` left out: it is as at the first time"
        return lower(body[0]) if work.tell(LEFT if len(body) > 1 else SAME, begin, words) else list(row)
    if times[0] > times[1]:
        times, body = times[::-1], body[::-1]
    if times[0] == times[1]:
        return lower(body[0])
    fresh = begin if len(row) == 4 and begin.numbers() == times else begin.made("MotionBegin", np.array(times))
    return moving(work, fresh, body, end, lower)


def moving(work: Work, begin: Request, body: Sequence[Request], end: Request, lower: Lower) -> list[Request]:
    """The block of two requests, each in the profile's words: those of the two that are alike stand once, each pair of others in a block."""
    work.moving = True
    first, last = (lower(it) for it in body)
    work.moving = False
    if len(first) != len(last) or any(a.name != b.name for a, b in zip(first, last)):
        words = f"motion of `{body[0].name}` left out: it isn't of one form at both times"
        return first if work.tell(LEFT, begin, words) else [begin, *body, end]
    if len(first) == 1 and first[0].name not in FACES:
        return [begin, first[0], last[0], end]
    found: list[Request] = []
    for a, b in zip(first, last):
        if a.name in FACES:
            found += faces(work, begin, a, b)
        elif a.name in ("Patch", "PatchMesh") or a.name in MOVES:
            found += [begin.made("MotionBegin", np.array(begin.numbers())), a, b, end.made("MotionEnd")]
        else:
            found.append(a)
    return found


def faces(work: Work, begin: Request, first: Request, last: Request) -> list[Request]:
    """Faces whose points move, as blocks of `Patch` for each piece: for the corners 0, k, k + 1 and k + 2 of a face, k = 1, 3, 5 and so on."""
    a, b = polygons.faces_of(work, first), polygons.faces_of(work, last)
    if a is None or b is None or a.corners != b.corners or a.loops != b.loops:
        return [first] if work.tell(LEFT, begin, "motion of faces left out: they aren't the same at both times") else [begin, first, last, begin.made("MotionEnd")]
    work.tell(SAME, begin, "faces in motion blocks turned into pieces that are motion blocks of `Patch`")
    found: list[Request] = []
    for face, loops in enumerate(a.loops):
        corners = loops[0]
        normal = unit(triangles.newell(a.points[[a.corners[it] for it in corners]]))
        for k in range(1, len(corners) - 1, 2):
            piece = [corners[it] for it in (0, k, min(k + 2, len(corners) - 1), k + 1)]
            places = [a.corners[it] for it in piece]
            held = [at_piece(it, face, piece, places, len(a.loops)) for it in a.variables.values() if it.name not in ("P", "Pw")]
            if not any(it.name == "N" for it in held):
                held.append(Variable("", "N", Kind("uniform", "normal"), normal[None]))
            found += [begin.made("MotionBegin", np.array(begin.numbers())),
                      begin.made("Patch", "bilinear", "P", a.points[places].ravel(), *variables.put(held)),
                      begin.made("Patch", "bilinear", "P", b.points[places].ravel()), begin.made("MotionEnd")]
    return found


def at_piece(it: Variable, face: int, corners: Sequence[int], points: Sequence[int], count: int) -> Variable:
    """A variable of faces as one of a piece."""
    if it.kind.of == "constant":
        return it
    if it.kind.of == "uniform":
        return it.of("uniform", it.taken([face if len(it) == count else 0]))
    return it.of("varying", it.taken(corners if it.kind.of == "facevarying" else points))


