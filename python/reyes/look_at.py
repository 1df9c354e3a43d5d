"""`look_at`: the matrix of a camera that stands at one point and looks at another."""
from __future__ import annotations

import argparse
import math
from collections.abc import Sequence

from reyes.errors import USAGE, Trouble

Triple = Sequence[float]


def add_arguments(parser: argparse.ArgumentParser) -> None:
    parser.description = "Prints the request that puts the camera at one point and turns it to another; it stands before WorldBegin, in place of other transformations."
    parser.epilog = "example:\n  python3 -m reyes look_at 3 2 -5 0 1 0\n  python3 -m reyes look_at 3 2 5 0 1 0 --up 0 0 1 --right-handed"
    parser.add_argument("place", nargs=3, type=float, metavar="PLACE", help="where the camera stands in the world: x, y, z")
    parser.add_argument("aim", nargs=3, type=float, metavar="AIM", help="what it looks at, which is in the middle of the picture: x, y, z")
    parser.add_argument("--up", nargs=3, type=float, default=(0, 1, 0), metavar=("X", "Y", "Z"), help="the direction that goes up in the picture (0 1 0)")
    parser.add_argument("--right-handed", action="store_true", help="the world is right-handed, as in OpenGL and Blender; it is mirrored")


def main(arguments: argparse.Namespace) -> int:
    rows = matrix(arguments.place, arguments.aim, arguments.up, arguments.right_handed)
    print(f"Transform [{'  '.join(' '.join(_number(it) for it in row) for row in rows)}]")
    return 0


def matrix(place: Triple, aim: Triple, up: Triple = (0, 1, 0), right_handed: bool = False) -> list[list[float]]:
    """The matrix from the world to the camera, by rows: points are rows, and the camera looks along +z, with x to the right and y up.
    Raises Trouble where both points are one, or `up` goes along the view.
    """
    ahead = _unit([b - a for a, b in zip(place, aim)])
    right = _unit(_cross(ahead, up) if right_handed else _cross(up, ahead))
    if not any(ahead) or not any(right):
        raise Trouble("the camera has to look at another point than its own, and not along the direction that goes up", USAGE)
    above = _cross(right, ahead) if right_handed else _cross(ahead, right)
    axes = (right, above, ahead)
    turned = [[axis[row] for axis in axes] + [0.0] for row in range(3)]
    return [*turned, [*(-sum(a * b for a, b in zip(axis, place)) for axis in axes), 1.0]]


def _cross(a: Triple, b: Triple) -> list[float]:
    return [a[1] * b[2] - a[2] * b[1], a[2] * b[0] - a[0] * b[2], a[0] * b[1] - a[1] * b[0]]


def _unit(v: Triple) -> list[float]:
    length = math.sqrt(sum(it * it for it in v))
    return [it / length for it in v] if 1e-9 < length < math.inf else [0.0, 0.0, 0.0]


def _number(value: float) -> str:
    text = f"{value:.6f}".rstrip("0").rstrip(".")
    return "0" if text == "-0" else text
