"""Where a sample lies in a micropolygon: in which triangle of its corners, and by what areas the corners count there.

The rule is that of docs/DEFINITIONS.md (`hider`/Coverage): a number at the sample is the mean of three corners' numbers, each weighted by the
area of the triangle that the sample makes with the other two, rounded down.
"""
from __future__ import annotations

from collections.abc import Sequence
from dataclasses import dataclass

from reyes.why.account import Corner, Spot


@dataclass(frozen=True)
class Areas:
    """The corners of the triangle that covers a place (0 to 3, those of its micropolygon), twice the area of each one's part, and twice the
    area of the whole.
    """

    corners: tuple[int, int, int]
    parts: tuple[int, int, int]
    whole: int

    def mean(self, numbers: Sequence[int]) -> int:
        """The mean of a number that the micropolygon's corners have, at the place."""
        return sum(part * numbers[at] for part, at in zip(self.parts, self.corners)) // self.whole


def areas(corners: Sequence[Corner], place: Spot) -> Areas | None:
    """The areas at a place: in the triangle of the corners 0, 1, 2, else in that of 0, 2, 3; None where neither covers it."""
    if len(corners) != 4:
        return None
    return _in_triangle(corners, (0, 1, 2), place) or _in_triangle(corners, (0, 2, 3), place)


def _in_triangle(corners: Sequence[Corner], of: tuple[int, int, int], place: Spot) -> Areas | None:
    a, b, c = (corners[it].place for it in of)
    whole = _edge(a, b, c)
    if whole < 0:
        return _in_triangle(corners, (of[0], of[2], of[1]), place)
    if whole == 0 or not (_inside(a, b, place) and _inside(b, c, place) and _inside(c, a, place)):
        return None
    return Areas(of, (_edge(b, c, place), _edge(c, a, place), _edge(a, b, place)), whole)


def _edge(a: Spot, b: Spot, c: Spot) -> int:
    """Twice the area of a triangle, with its sign."""
    return (b[0] - a[0]) * (c[1] - a[1]) - (b[1] - a[1]) * (c[0] - a[0])


def _inside(a: Spot, b: Spot, place: Spot) -> bool:
    """Inside an edge, or on a left or upper one."""
    area = _edge(a, b, place)
    return area > 0 or area == 0 and (b[1] < a[1] or b[1] == a[1] and b[0] > a[0])
