"""What shows nothing, taken out where a scene passes a limit: polygons that face away under `Sides 1`, and state that is set again."""
from __future__ import annotations

from collections.abc import Iterable, Sequence

import numpy as np

from . import matrices, polygons, triangles
from .changes import SAME
from .matrices import unit
from .state import BLOCKS, ENDS, State
from .text import Floats, Request, after, written
from .work import Work

MOST_PATCHES = 65536
MOST_BYTES = 1 << 24
AGAIN = ("Color", "Opacity", "Surface", "ShadingRate", "Sides", "ShadingInterpolation")
CLEAR = 0.02


def patches_of(request: Request) -> int:
    """How many patches a primitive counts as; for a mesh at most, since the steps of its basis aren't looked at."""
    name = request.name
    if name == "PointsPolygons":
        return int(np.maximum((request.array(0) - 1) // 2, 0).sum())
    if name == "Polygon":
        at = next((k for k, it in enumerate(request.args) if isinstance(it, str) and it.split()[-1:] == ["P"]), len(request.args))
        return max(0, (len(request.array(at + 1)) // 3 - 1) // 2)
    if name == "PatchMesh":
        step = 3 if request.word(0) == "bicubic" else 1
        return int(np.prod([max(1, (it - 1) // step) for it in (request.whole(1) + [1])[:1] + (request.whole(3) + [1])[:1]]))
    return {"Patch": 1, "Sphere": 8, "Cylinder": 4, "Cone": 4, "Disk": 4}.get(name, 0)


def passes_limit(row: Iterable[Request]) -> bool:
    """Whether a frame has more patches, or the text more bytes, than the renderer takes."""
    patches = size = 0
    for it in row:
        size += len(it.text) if it.text is not None else len(written(it))
        patches = 0 if it.name == "WorldBegin" else patches + patches_of(it)
        if patches > MOST_PATCHES or size > MOST_BYTES:
            return True
    return False


def away(state: State, points: Floats) -> Floats:
    """Which flat polygons of shape (n, corners, 3) clearly show their hidden side, by the state that is in force."""
    m = state.to_camera()
    p = matrices.points(m, points)
    normals = unit(triangles.newell(p - p[:, :1]))
    looks = unit(p[:, 0]) if state.options.perspective else np.array([[0.0, 0.0, 1.0]])
    slopes = (normals * looks).sum(axis=1)
    outside = state.attributes.inside != matrices.is_mirrored(m)
    found: Floats = (np.abs(slopes) > CLEAR) & ((slopes > 0) != outside)
    return found


def hides(state: State) -> bool:
    """Whether one side is hidden, and nothing moves."""
    if state.attributes.sides != 1 or state.place is not None or not state.world:
        return False
    return np.array_equal(state.to_camera(0), state.to_camera(1))


def seen(work: Work, state: State, request: Request) -> list[Request]:
    """A polygon that may be seen, or those faces of many that may; no request where there is none."""
    corners = polygons.points_of(request) if request.name == "Polygon" else None
    if corners is not None:
        return [] if away(state, np.array([corners]))[0] else [request]
    faces = polygons.faces_of(work, request) if request.name == "PointsPolygons" else None
    if faces is None:
        return [request]
    gone = np.zeros(len(faces.loops), dtype=bool)
    for group, rows in polygons.by_size(faces, 3):
        gone[group] = away(state, rows)
    if not gone.any():
        return [request]
    row = [(at, loops[0]) for at, loops in enumerate(faces.loops) if not gone[at]]
    return after([polygons.rebuilt(request, faces, row)], request) if row else []


def culled(work: Work, row: Sequence[Request]) -> list[Request]:
    """The requests without those that change nothing in the picture."""
    state, found, last, saved = State(), list[Request](), dict[str, bytes](), list[dict[str, bytes]]()
    for it in row:
        if it.name in BLOCKS:
            saved.append(dict(last))
        elif it.name in ENDS and saved:
            last = saved.pop()
        if it.name in AGAIN:
            words = b" ".join(written(it).split(b"#")[0].split())
            if last.get(it.name) == words:
                work.tell(SAME, it, f"`{it.name}` that is in force already taken out, since the scene passes a limit")
                continue
            last[it.name] = words
        kept = seen(work, state, it) if it.name in ("Polygon", "PointsPolygons") and hides(state) else [it]
        if kept != [it]:
            work.tell(SAME, it, "polygons that face away under `Sides 1` taken out, since the scene passes a limit")
        state.follow(it)
        found += kept
    return found
