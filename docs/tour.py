#!/usr/bin/env python3
"""Draws the two scenes of docs/TOUR.md by the formulas of that page, and by nothing of the program: a Reyes renderer of a page.

  docs/tour.py SCENE > OUT.ppm     SCENE is `tour` or `tour_moving`: the bytes that `reyes render` gives of examples/SCENE.rib
  docs/tour.py SCENE X Y           the samples of a pixel: place, time, leaf, micropolygon, depth and colour of each, and the pixel's bytes

All numbers are raws, whole numbers of 65536ths, and `//` rounds down.
"""
from __future__ import annotations

import sys
from dataclasses import dataclass

ONE, LIMIT, SIDE, SAMPLES = 65536, 2147483647, 32, 2
Point = tuple[int, int, int]
Spot = tuple[int, int]
Corner = tuple[Spot, int]


@dataclass(frozen=True)
class Scene:
    """A patch's corners in camera space, how far it swells per u times v, its displacement bound, and its way while the shutter is open."""

    corners: tuple[Point, Point, Point, Point]
    swell: int
    bound: int
    way: int


@dataclass(frozen=True)
class Seen:
    """What a sample shows: the depth, the colour, and the micropolygon's leaf, column and row."""

    depth: int
    colour: Point
    cell: tuple[int, int, int]


FAR = ((-131072, -131072, 131072), (131072, -131072, 131072), (-131072, 131072, 131072))
SCENES = {"tour": Scene((*FAR, (131072, 131072, 262144)), 0, 0, 0), "tour_moving": Scene((*FAR, (131072, 131072, 131072)), ONE, ONE // 2, ONE)}


def mul(a: int, b: int) -> int:
    """A product of numbers, rounded down and kept in range."""
    return max(-LIMIT, min(LIMIT, a * b // ONE))


def hash32(*words: int) -> int:
    """The hash that scatters samples."""
    h = 0
    for word in words:
        h = (h + word + 1) % 2**32
        h = (h ^ h >> 16) * 0x85EBCA6B % 2**32
        h = (h ^ h >> 13) * 0xC2B2AE35 % 2**32
        h ^= h >> 16
    return h


def grid_point(scene: Scene, i: int, j: int) -> tuple[Point, Point]:
    """Point i, j of the 33 by 33 that all leaves have together, displaced, and its colour."""
    u, v = i * 2048, j * 2048
    a, b, c, d = scene.corners
    flat = [((32 - i) * (32 - j) * a[k] + i * (32 - j) * b[k] + (32 - i) * j * c[k] + i * j * d[k]) // 1024 for k in range(3)]
    moved = (flat[0], flat[1], flat[2] - mul(mul(u, v), scene.swell))
    x, y, z = (max(old - scene.bound, min(old + scene.bound, new)) for old, new in zip(flat, moved))
    return (x, y, z), (u, v, 16384)


def on_raster(p: Point) -> Spot:
    """Where the camera sees a point: a field of 90 degrees, 32 pixels of 256 steps."""
    return 256 * SIDE * (p[0] + p[2]) // (2 * p[2]), 256 * SIDE * (p[2] - p[1]) // (2 * p[2])


def edge(a: Spot, b: Spot, s: Spot) -> int:
    """Twice the area of a triangle, with its sign."""
    return (b[0] - a[0]) * (s[1] - a[1]) - (b[1] - a[1]) * (s[0] - a[0])


def is_inside(a: Spot, b: Spot, s: Spot) -> bool:
    """Inside an edge, or on a left or upper one."""
    area = edge(a, b, s)
    return area > 0 or area == 0 and (b[1] < a[1] or b[1] == a[1] and b[0] > a[0])


def depth_in(a: Corner, b: Corner, c: Corner, s: Spot) -> int | None:
    """The depth of a triangle at a place, where it covers it."""
    whole = edge(a[0], b[0], c[0])
    if whole < 0:
        return depth_in(a, c, b, s)
    if whole == 0 or not (is_inside(a[0], b[0], s) and is_inside(b[0], c[0], s) and is_inside(c[0], a[0], s)):
        return None
    return (edge(b[0], c[0], s) * a[1] + edge(c[0], a[0], s) * b[1] + edge(a[0], b[0], s) * c[1]) // whole


def depth_at(corners: list[Corner], s: Spot) -> int | None:
    """The depth of a micropolygon at a place: in the triangle of its corners 0, 1, 2, else in that of 0, 2, 3."""
    if not (min(it[0][0] for it in corners) <= s[0] <= max(it[0][0] for it in corners)):
        return None
    a, b, c, d = corners
    depth = depth_in(a, b, c, s)
    return depth_in(a, c, d, s) if depth is None else depth


def sample_at(x: int, y: int, n: int) -> tuple[Spot, int]:
    """The place and time of sample n of a pixel."""
    across = 256 * x + (256 * (n % SAMPLES) + hash32(x, y, n, 0) % 256) // SAMPLES
    down = 256 * y + (256 * (n // SAMPLES) + hash32(x, y, n, 1) % 256) // SAMPLES
    return (across, down), hash32(x, y, n, 2) >> 16


class Drawing:
    """A scene with its grids, and the samples that have been looked at."""

    def __init__(self, scene: Scene) -> None:
        self.scene = scene
        self.grid = {(i, j): grid_point(scene, i, j) for i in range(33) for j in range(33)}
        self.kept: dict[tuple[int, int, int], Seen | None] = {}
        # micropolygons leaf by leaf: the leaf, its column and row, and the place of the first corner among all points
        leaves = enumerate((u, v) for u in (0, 16) for v in (0, 16))
        self.cells = [((leaf, i, j), u + i, v + j) for leaf, (u, v) in leaves for j in range(16) for i in range(16)]

    def at_time(self, time: int) -> dict[tuple[int, int], Corner]:
        """All points on their ways at a time: where the camera sees them, and how deep."""
        shift = self.scene.way * time // ONE
        return {it: (on_raster((p[0] + shift, p[1], p[2])), p[2]) for it, (p, _) in self.grid.items()}

    def look(self, x: int, y: int, n: int) -> Seen | None:
        """What sample n of a pixel shows: the nearest micropolygon that covers it, the first of several at one depth."""
        if (x, y, n) not in self.kept:
            place, time = sample_at(x, y, n)
            corners, found = self.at_time(time), None
            for cell, i, j in self.cells:
                depth = depth_at([corners[i, j], corners[i + 1, j], corners[i + 1, j + 1], corners[i, j + 1]], place)
                if depth is not None and (found is None or depth < found.depth):
                    found = Seen(depth, self.grid[i, j][1], cell)
            self.kept[x, y, n] = found
        return self.kept[x, y, n]

    def pixel(self, x: int, y: int) -> bytes:
        """A pixel's bytes: the mean by a triangle filter of two by two pixels, in 255 levels."""
        sums, weights = [0, 0, 0], 0
        for yy in range(max(0, y - 1), min(SIDE, y + 2)):
            for xx in range(max(0, x - 1), min(SIDE, x + 2)):
                for n in range(SAMPLES * SAMPLES):
                    weight = weight_of(sample_at(xx, yy, n)[0], x, y)
                    weights += weight
                    if weight and (seen := self.look(xx, yy, n)):
                        sums = [s + weight * part for s, part in zip(sums, seen.colour)]
        return bytes(max(0, min(255, (2 * 255 * (s // weights) + ONE) // (2 * ONE))) for s in sums)


def weight_of(place: Spot, x: int, y: int) -> int:
    """How much a sample counts for a pixel."""
    dx, dy = place[0] - 256 * x - 128, place[1] - 256 * y - 128
    if not (-512 <= 2 * dx < 512 and -512 <= 2 * dy < 512):
        return 0
    return mul(ONE * (512 - 2 * abs(dx)) // 512, ONE * (512 - 2 * abs(dy)) // 512)


def main(words: list[str]) -> int:
    if words in (["-h"], ["--help"]):
        print(__doc__, end="")
        return 0
    if len(words) not in (1, 3) or words[0] not in SCENES or not all(it.isdigit() and int(it) < SIDE for it in words[1:]):
        print(__doc__, end="", file=sys.stderr)
        return 2
    drawing = Drawing(SCENES[words[0]])
    if len(words) == 1:
        pixels = b"".join(drawing.pixel(x, y) for y in range(SIDE) for x in range(SIDE))
        sys.stdout.buffer.write(b"P6\n%d %d\n255\n" % (SIDE, SIDE) + pixels)
        return 0
    x, y = int(words[1]), int(words[2])
    for n in range(SAMPLES * SAMPLES):
        place, time = sample_at(x, y, n)
        print(f"sample {n}: place {place}, time {time}, {drawing.look(x, y, n)}")
    print(f"bytes: {tuple(drawing.pixel(x, y))}")
    return 0


if __name__ == "__main__":
    sys.exit(main(sys.argv[1:]))
