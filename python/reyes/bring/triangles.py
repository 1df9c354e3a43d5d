"""Flat polygons with dents and holes as triangles: holes are joined to the outline by cuts, and then ears are clipped.

The work grows with the square of a polygon's corners; a polygon of more than MOST corners isn't cut but fanned about its first one.
"""
from __future__ import annotations

from collections.abc import Sequence

import numpy as np

from .text import Floats

MOST = 4096
Triangle = tuple[int, int, int]


def newell(points: Floats) -> Floats:
    """Twice the area of polygons as a vector along their normals: for points of shape (.., k, 3) of shape (.., 3)."""
    found: Floats = np.cross(points, np.roll(points, -1, axis=-2)).sum(axis=-2)
    return found


def flat(points: Floats, outline: Sequence[int]) -> Floats:
    """The points without the coordinate along which the outline is seen best, so that it goes round counterclockwise."""
    normal = newell(points[list(outline)] - points[outline[0]])
    axis = int(np.argmax(np.abs(normal)))
    x, y = [(1, 2), (2, 0), (0, 1)][axis]
    return points[:, [x, y] if normal[axis] >= 0 else [y, x]]


def turn(a: Floats, b: Floats, c: Floats) -> Floats:
    """Twice the area of triangles, above 0 where they go round counterclockwise."""
    found: Floats = (b[..., 0] - a[..., 0]) * (c[..., 1] - a[..., 1]) - (b[..., 1] - a[..., 1]) * (c[..., 0] - a[..., 0])
    return found


def area(q: Floats, loop: Sequence[int]) -> float:
    p = q[list(loop)] - q[loop[0]]
    n = np.roll(p, -1, axis=0)
    return float((p[:, 0] * n[:, 1] - p[:, 1] * n[:, 0]).sum())


def bridge(q: Floats, ring: list[int], hole: list[int]) -> list[int]:
    """A ring that goes to a hole and back. The cut goes from the hole's rightmost corner to the nearest corner of the ring that it sees."""
    start = max(range(len(hole)), key=lambda k: float(q[hole[k], 0]))
    hole = hole[start:] + hole[:start]
    m, r = q[hole[0]], q[ring]
    ends = np.roll(r, -1, axis=0)
    order = np.argsort(((r - m) ** 2).sum(axis=1), kind="stable")
    for place in order[:256]:
        p = r[place]
        apart = (turn(m, p, r) * turn(m, p, ends) < 0) & (turn(r, ends, m) * turn(r, ends, p) < 0)
        if not apart.any():
            break
    else:
        place = order[0]
    at = int(place)
    return ring[:at + 1] + hole + [hole[0]] + ring[at:]


class Ring:
    """The corners that are left, in a circle, and which of them turn the wrong way."""

    def __init__(self, q: Floats, ring: Sequence[int]) -> None:
        self.q, self.ids = q, list(ring)
        count = len(ring)
        self.next = list(range(1, count)) + [0]
        self.before = [count - 1] + list(range(count - 1))
        self.p = q[self.ids]
        self.dented = turn(np.roll(self.p, 1, axis=0), self.p, np.roll(self.p, -1, axis=0)) <= 0
        self.left = np.ones(count, dtype=bool)

    def is_ear(self, at: int) -> bool:
        if self.dented[at]:
            return False
        a, b, c = self.p[self.before[at]], self.p[at], self.p[self.next[at]]
        rest = self.p[self.dented & self.left]
        if not len(rest):
            return True
        same = (rest == a).all(axis=1) | (rest == b).all(axis=1) | (rest == c).all(axis=1)
        within = (turn(a, b, rest) >= 0) & (turn(b, c, rest) >= 0) & (turn(c, a, rest) >= 0)
        return not bool((within & ~same).any())

    def clip(self, at: int) -> Triangle:
        """Takes a corner out and gives its triangle."""
        before, after = self.before[at], self.next[at]
        self.next[before], self.before[after], self.left[at] = after, before, False
        for it in (before, after):
            self.dented[it] = turn(self.p[self.before[it]], self.p[it], self.p[self.next[it]]) <= 0
        return self.ids[before], self.ids[at], self.ids[after]


def clipped(q: Floats, corners: Sequence[int]) -> list[Triangle]:
    """The triangles of a ring. Where it crosses itself, so that no ear is left, some corner is taken."""
    ring, found, at, tried = Ring(q, corners), [], 0, 0
    left = len(corners)
    while left > 3:
        if ring.is_ear(at) or tried > left:
            found.append(ring.clip(at))
            left, tried = left - 1, 0
            at = ring.before[at]
        else:
            at, tried = ring.next[at], tried + 1
    found.append((ring.ids[ring.before[at]], ring.ids[at], ring.ids[ring.next[at]]))
    return found


def cut(points: Floats, loops: Sequence[Sequence[int]]) -> list[Triangle]:
    """The triangles of a polygon: `loops` are the places of its corners, the outline first and then its holes. They go round as the
    outline does."""
    outline = list(loops[0])
    if sum(map(len, loops)) > MOST:
        return [(outline[0], b, c) for b, c in zip(outline[1:], outline[2:])]
    q = flat(points, outline)
    holes = [list(it) if area(q, it) < 0 else list(reversed(it)) for it in loops[1:] if len(it) > 2]
    ring = outline
    for hole in sorted(holes, key=lambda it: -max(float(q[k, 0]) for k in it)):
        ring = bridge(q, ring, hole)
    return clipped(q, ring)
