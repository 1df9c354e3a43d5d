"""Polygons: those with dents and holes are cut into triangles, and the general requests become those that the profile has."""
from __future__ import annotations

import math
from collections.abc import Iterator, Mapping, Sequence
from dataclasses import dataclass, replace

import numpy as np

from . import triangles, variables
from .changes import LEFT, SAME
from .text import Floats, Request
from .variables import Variable
from .work import Work

# Where more of the given normals than this part agree with the computed ones, they aren't turned over.
MIXED = 0.05
FEW = 60
GIVEN = ("N", "vertex normal N", "varying normal N", "facevarying normal N")
NEGATED = "given normals negated: the standard doesn't reverse them with the orientation, as the profile does"
NAMES = {"Polygon": 0, "GeneralPolygon": 1, "PointsPolygons": 2, "PointsGeneralPolygons": 3}


@dataclass(frozen=True)
class Faces:
    """The faces of a request: the loops of each, as places among all corners; the point of each corner; the variables of the list."""

    loops: list[list[list[int]]]
    corners: list[int]
    variables: Mapping[str, Variable]
    points: Floats


def parted(counts: Sequence[int], start: int = 0) -> list[list[int]]:
    """Consecutive places in groups of these sizes."""
    found = []
    for it in counts:
        found.append(list(range(start, start + it)))
        start += it
    return found


def faces_of(work: Work, request: Request) -> Faces | None:
    """The faces of a polygon request, or None where it has no points or its counts don't fit."""
    arrays = NAMES[request.name]
    held = work.variables(request, arrays)
    points = variables.points_of(held)
    if points is None:
        return None
    if request.name == "Polygon":
        sizes, loops, corners = [1], [len(points)], list(range(len(points)))
    elif request.name == "GeneralPolygon":
        loops = request.whole(0)
        sizes, corners = [len(loops)], list(range(len(points)))
    elif request.name == "PointsPolygons":
        loops, corners = request.whole(0), request.whole(1)
        sizes = [1] * len(loops)
    else:
        sizes, loops, corners = request.whole(0), request.whole(1), request.whole(2)
    if min([0, *sizes, *loops]) < 0 or sum(sizes) != len(loops) or sum(loops) > len(corners) or not loops:
        return None
    rings = parted(loops)
    return Faces([[rings[k] for k in group] for group in parted(sizes)], corners, held, points)


def dented(points: Floats) -> Floats:
    """Which polygons of k corners, of shape (n, k, 3), turn the wrong way somewhere or go round more than once."""
    edges = np.roll(points, -1, axis=1) - points
    normal = triangles.newell(points - points[:, :1])
    size = np.linalg.norm(normal, axis=1, keepdims=True)
    unit = normal / np.where(size == 0, 1, size)
    after = np.roll(edges, -1, axis=1)
    turns = np.einsum("nki,ni->nk", np.cross(edges, after), unit)
    angles = np.arctan2(turns, np.einsum("nki,nki->nk", edges, after)).sum(axis=1)
    found: Floats = (turns < -1e-5 * size).any(axis=1) | (angles > 3 * np.pi)
    return found


def points_of(request: Request) -> list[list[float]] | None:
    """The points of a `Polygon` that are given as such, of a polygon of few corners."""
    for at in range(0, len(request.args) - 1, 2):
        if request.word(at) == "P":
            n = request.array(at + 1)
            return n.reshape(-1, 3).tolist() if 9 <= len(n) <= FEW and len(n) % 3 == 0 else None
    return None


def cross(a: Sequence[float], b: Sequence[float]) -> tuple[float, float, float]:
    return a[1] * b[2] - a[2] * b[1], a[2] * b[0] - a[0] * b[2], a[0] * b[1] - a[1] * b[0]


def normal_of(p: Sequence[Sequence[float]]) -> tuple[float, float, float]:
    """Twice the area of one polygon along its normal."""
    x = y = z = 0.0
    for (a, b, c), (d, e, f) in zip(p, [*p[1:], p[0]]):
        x, y, z = x + b * f - c * e, y + c * d - a * f, z + a * e - b * d
    return x, y, z


def is_plainly_convex(request: Request) -> bool:
    """The same as `dented` says of one polygon of few corners, without arrays: scenes have very many of these."""
    p = points_of(request)
    if p is None:
        return False
    if len(p) == 3:
        return True
    normal = normal_of(p)
    size = math.sqrt(sum(it * it for it in normal)) or 1.0
    edges = [[b - a for a, b in zip(*pair)] for pair in zip(p, [*p[1:], p[0]])]
    total = 0.0
    for a, b in zip(edges, [*edges[1:], edges[0]]):
        turn = sum(x * y for x, y in zip(cross(a, b), normal)) / size
        if turn < -1e-5 * size:
            return False
        total += math.atan2(turn, sum(x * y for x, y in zip(a, b)))
    return total < 3 * math.pi


def by_size(faces: Faces, least: int) -> Iterator[tuple[list[int], Floats]]:
    """The faces of one loop of so many corners or more, in groups of one size: their places, and their points of shape (n, corners, 3)."""
    places = np.array(faces.corners, dtype=np.int64)
    groups: dict[int, list[int]] = {}
    for at, loops in enumerate(faces.loops):
        if len(loops) == 1 and len(loops[0]) >= least:
            groups.setdefault(len(loops[0]), []).append(at)
    for group in groups.values():
        yield group, faces.points[places[np.array([faces.loops[at][0] for at in group])]]


def to_cut(faces: Faces) -> list[bool]:
    """Which faces are not one convex loop."""
    found = [len(loops) > 1 for loops in faces.loops]
    for group, rows in by_size(faces, 4):
        for at, bad in zip(group, dented(rows)):
            found[at] = bool(bad)
    return found


def pieces(faces: Faces, bad: Sequence[bool]) -> list[tuple[int, list[int]]]:
    """The faces that are drawn: the place of the face that each comes of, and the places of its corners."""
    found: list[tuple[int, list[int]]] = []
    points = faces.points[np.array(faces.corners, dtype=np.int64)] if any(bad) else faces.points
    for at, loops in enumerate(faces.loops):
        if bad[at]:
            found += [(at, list(it)) for it in triangles.cut(points, loops)]
        elif len(loops) == 1 and len(loops[0]) > 2:
            found.append((at, loops[0]))
    return found


def rebuilt(request: Request, faces: Faces, row: Sequence[tuple[int, list[int]]]) -> Request:
    """The `PointsPolygons` of these pieces."""
    held = [faces.variables["P"].of("vertex", faces.points)] if "P" in faces.variables else [
        Variable("P", "P", variables.START["P"], faces.points)]
    owners, places = [at for at, _ in row], [it for _, corners in row for it in corners]
    for it in faces.variables.values():
        if it.name in ("P", "Pw"):
            continue
        if it.kind.of == "uniform":
            held.append(it.of("uniform", it.taken(owners)) if len(it) == len(faces.loops) else it.of("constant", it.taken([0])))
        elif it.kind.of in ("facevarying", "facevertex") and len(it) >= len(faces.corners):
            held.append(it.of("facevarying", it.taken(places)))
        else:
            held.append(it)
    counts = np.array([len(it) for _, it in row], dtype=float)
    return request.made("PointsPolygons", counts, np.array([faces.corners[it] for it in places], dtype=float), *variables.put(held))


def as_convex(work: Work, request: Request) -> list[Request] | None:
    """Polygons as the profile has them and as their author meant them."""
    if request.name == "Polygon" and is_plainly_convex(request):
        return None
    faces = faces_of(work, request)
    if faces is None:
        return None
    missing = [any(not 0 <= faces.corners[k] < len(faces.points) for loop in loops for k in loop) for loops in faces.loops]
    small = [not loops or len(loops[0]) < 3 for loops in faces.loops]
    if any(missing) and not work.tell(LEFT, request, f"faces of `{request.name}` with points that aren't there left out"):
        return None
    if any(small):
        work.tell(SAME, request, f"faces of `{request.name}` with less than three corners, which show nothing, taken out")
    gone = [a or b for a, b in zip(missing, small)]
    faces = replace(faces, loops=[[] if it else loops for it, loops in zip(gone, faces.loops)])
    bad, general = to_cut(faces), "General" in request.name
    if any(bad):
        what = "holes or dents" if general else "dents"
        work.tell(SAME, request, f"`{request.name}` with {what} cut into triangles: the profile draws convex polygons")
    if any(bad) or any(gone):
        row = pieces(faces, bad)
        return [rebuilt(request, faces, row)] if row else []
    if general:
        name = request.name.replace("General", "")
        work.tell(SAME, request, f"`{request.name}` of convex loops turned into `{name}`")
        return [request.made(name, *request.args[1:])]
    return None


def simple_outward(work: Work, request: Request) -> list[Request] | None:
    """The same as `with_outward` for one polygon of few corners, without arrays."""
    at = next((k for k in range(0, len(request.args) - 1, 2) if request.word(k) in GIVEN), None)
    p = points_of(request)
    if at is None or p is None:
        return None
    normal = normal_of(p)
    n = request.array(at + 1)
    if any(sum(x * y for x, y in zip(it, normal)) >= 0 for it in n.reshape(-1, 3).tolist()):
        return None
    work.tell(SAME, request, NEGATED)
    return [request.made("Polygon", *request.args[:at + 1], -n, *request.args[at + 2:])]


def with_outward(work: Work, request: Request) -> list[Request] | None:
    """Faces with given normals under a reversed orientation. The standard reverses computed normals alone, the profile given ones too:
    where they are the opposite of the computed ones as they stand, the author meant them to agree after that, and they are negated."""
    if not work.state.attributes.inside:
        return None
    if request.name == "Polygon" and len(request.args) <= 8 and len(request.array(1)) <= FEW:
        return simple_outward(work, request)
    faces = faces_of(work, request)
    normals = faces.variables.get("N") if faces is not None else None
    if faces is None or normals is None or normals.kind.of not in ("varying", "vertex", "facevarying") or any(len(it) != 1 for it in faces.loops):
        return None
    firsts = [loops[0] for loops in faces.loops if len(loops[0]) > 2]
    rows = np.array([it[:3] for it in firsts], dtype=np.int64).reshape(-1, 3)
    points = np.array(faces.corners, dtype=np.int64)[rows]
    places = rows if normals.kind.of == "facevarying" else points
    if not len(rows) or places.max() >= len(normals):
        return None
    agree = np.einsum("ni,nki->nk", triangles.newell(faces.points[points]), normals.numbers()[places])
    if (agree >= 0).mean() > MIXED:
        return None
    work.tell(SAME, request, NEGATED)
    row = [normals.of(normals.kind.of, -normals.numbers()) if it is normals else it for it in faces.variables.values()]
    return [request.made(request.name, *request.args[:NAMES[request.name]], *variables.put(row))]


PASSES = {name: (as_convex,) for name in NAMES}
NORMALS = {name: (with_outward,) for name in ("Polygon", "PointsPolygons")}
