"""Trimmed NURBS surfaces as polygons: a grid of the parameters whose points near the trimming curve are moved onto it."""
from __future__ import annotations

from collections.abc import Mapping, Sequence

import numpy as np

from . import variables
from .changes import NEAR
from .splines import Side, Surface
from .text import Floats, Request
from .variables import Variable
from .work import Work

CELLS = 64
SAMPLES = 24
MOST = 65536


def loops_of(request: Request) -> tuple[Floats, ...]:
    """The loops of a `TrimCurve` as closed polygons in the plane of u and v, of shape (n, 2) each. ValueError where its counts don't fit."""
    sizes, orders, knots = request.whole(0), request.whole(1), request.array(2)
    low, high, counts = request.array(3), request.array(4), request.whole(5)
    rows = np.stack([request.array(6), request.array(7), request.array(8)], axis=1)
    if sum(sizes) != len(orders) or not len(orders) == len(low) == len(high) == len(counts) or sum(counts) != len(rows):
        raise ValueError("the counts of `TrimCurve` don't fit")
    curves, knot, row = [], 0, 0
    for order, count, begin, end in zip(orders, counts, low, high):
        side = Side(count, order, knots[knot:knot + count + order], float(begin), float(end))
        steps = np.linspace(begin, end, min(SAMPLES * count, MOST), endpoint=False)
        places, weights, _ = side.basis(steps, side.spans(steps))
        found = np.einsum("nk,nkw->nw", weights, rows[row:row + count][places])
        curves.append(found[:, :2] / found[:, 2:])
        knot, row = knot + count + order, row + count
    found_loops, at = [], 0
    for size in sizes:
        found_loops.append(np.concatenate(curves[at:at + size]))
        at += size
    return tuple(found_loops)


def kept(work: Work, request: Request) -> Sequence[Request] | None:
    """Keeps the loops of a `TrimCurve` for the surfaces after it; without loops it ends the trimming."""
    loops = loops_of(request) if len(request.array(0)) else ()
    if not work.tell(NEAR, request, "`TrimCurve` taken into the surfaces that it trims"):
        return None
    work.state.set(trims=loops)
    return []


def edges(loops: Sequence[Floats]) -> tuple[Floats, Floats]:
    """Begins and ends of all edges."""
    return np.concatenate(loops), np.concatenate([np.roll(it, -1, axis=0) for it in loops])


def inside(p: Floats, begin: Floats, end: Floats) -> Floats:
    """Which points have an odd number of edges to their left. The grid has a fixed size, so the work is that of the edges."""
    odd = np.zeros(len(p), dtype=bool)
    for at in range(0, len(begin), 256):
        a, b = begin[at:at + 256], end[at:at + 256]
        spans = (a[:, 1] > p[:, None, 1]) != (b[:, 1] > p[:, None, 1])
        rise = np.where(b[:, 1] == a[:, 1], 1.0, b[:, 1] - a[:, 1])
        x = a[:, 0] + (p[:, None, 1] - a[:, 1]) / rise * (b[:, 0] - a[:, 0])
        odd ^= (spans & (p[:, None, 0] < x)).sum(axis=1) % 2 == 1
    return odd


def nearest(p: Floats, begin: Floats, end: Floats) -> Floats:
    """The point of the edges that is nearest to each point."""
    best, far = p.copy(), np.full(len(p), np.inf)
    for at in range(0, len(begin), 256):
        a, d = begin[at:at + 256], (end - begin)[at:at + 256]
        size = (d * d).sum(axis=1)
        part = np.clip(((p[:, None] - a) * d).sum(axis=2) / np.where(size == 0, 1, size), 0, 1)
        on = a + part[..., None] * d
        away = ((on - p[:, None]) ** 2).sum(axis=2)
        which = away.argmin(axis=1)
        rows = np.arange(len(p))
        closer = away[rows, which] < far
        far[closer], best[closer] = away[rows, which][closer], on[rows, which][closer]
    return best


def cells() -> Floats:
    """The corners of the grid's cells, counterclockwise, of shape (n, 4)."""
    first = (np.arange(CELLS)[:, None] * (CELLS + 1) + np.arange(CELLS)).ravel()
    return np.stack([first, first + 1, first + CELLS + 2, first + CELLS + 1], axis=1)


def cut_grid(loops: Sequence[Floats], outside: bool) -> tuple[Floats, list[Floats]]:
    """The grid's points in the unit square, and the faces that are kept: whole cells, and triangles along the edge. A point less than half
    a cell from the curve is moved onto it."""
    begin, end = edges(loops)
    u, v = np.meshgrid(np.linspace(0, 1, CELLS + 1), np.linspace(0, 1, CELLS + 1))
    p = np.stack([u.ravel(), v.ravel()], axis=1)
    within = inside(p, begin, end) != outside
    on = nearest(p, begin, end)
    near = np.abs(on - p).max(axis=1) <= 0.51 / CELLS
    p = np.where(near[:, None], np.clip(on, 0, 1), p)
    quads = cells()
    kept_corners = (within | near)[quads]
    count = kept_corners.sum(axis=1)
    found = [quads[count == 4]]
    for k in range(4):
        found.append(np.roll(quads, -1 - k, axis=1)[(count == 3) & ~kept_corners[:, k]][:, :3])
    return p, [row[inside(p[row].mean(axis=1), begin, end) != outside] for row in found if len(row)]


def drawn(work: Work, request: Request, surface: Surface, loops: Sequence[Floats], others: Mapping[str, Variable]) -> list[Request]:
    """The part of a surface that the loops keep, as polygons with normals."""
    u, v = surface.u, surface.v
    scale, low = np.array([u.high - u.low, v.high - v.low]), np.array([u.low, v.low])
    p, faces = cut_grid([(it - low) / scale for it in loops], work.state.attributes.trim_outside)
    counts = np.concatenate([np.full(len(it), float(it.shape[1])) for it in faces] or [np.zeros(0)])
    if not len(counts):
        return []
    used, places = np.unique(np.concatenate([it.ravel() for it in faces]), return_inverse=True)
    points, normals = surface.at_points(*(p[used] * scale + low).T)
    held = [Variable("P", "P", variables.START["P"], points), Variable("N", "N", variables.Kind("vertex", "normal"), normals),
            Variable("st", "st", variables.Kind("vertex", "float", 2), p[used])]
    held += [it.of("constant", it.taken([0])) for it in others.values() if len(it) == 1 and it.name not in ("st", "s", "t", "N")]
    return [request.made("PointsPolygons", counts, places.astype(float).ravel(), *variables.put(held))]
