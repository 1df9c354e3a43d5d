"""Transformations as RenderMan has them: points are rows, so a translation stands in the last row."""
from __future__ import annotations

import math
from collections.abc import Sequence

import numpy as np

from .text import Floats

IDENTITY: Floats = np.eye(4)


def unit(v: Floats) -> Floats:
    """Vectors of length 1 along the last axis; those of no length stay."""
    length = np.linalg.norm(v, axis=-1, keepdims=True)
    found: Floats = np.divide(v, length, out=np.zeros_like(v), where=length > 0)
    return found


def turn(angle: float, axis: Sequence[float]) -> Floats:
    """The matrix of `Rotate`."""
    x, y, z = unit(np.array(axis, dtype=float))
    s, c = math.sin(math.radians(angle)), math.cos(math.radians(angle))
    t = 1 - c
    return np.array([[t * x * x + c, t * x * y + s * z, t * x * z - s * y, 0], [t * x * y - s * z, t * y * y + c, t * y * z + s * x, 0],
                     [t * x * z + s * y, t * y * z - s * x, t * z * z + c, 0], [0, 0, 0, 1]])


def skew(angle: float, along: Sequence[float], to: Sequence[float]) -> Floats:
    """The matrix of `Skew`: it turns the direction `along` towards `to` so that the angle between them shrinks by `angle`."""
    first, second = unit(np.array(along, dtype=float)), unit(np.array(to, dtype=float))
    side = unit(second - first * float(first @ second))
    found = np.eye(4)
    found[:3, :3] += np.outer(first, side) * math.tan(math.radians(angle))
    return found


def of_request(name: str, n: Sequence[float]) -> Floats | None:
    """The matrix that a request with these numbers puts before the current one (for `Transform` in its place), or None."""
    if name == "Translate" and len(n) == 3:
        found = np.eye(4)
        found[3, :3] = n
        return found
    if name == "Scale" and len(n) == 3:
        return np.diag([*n, 1.0])
    if name == "Rotate" and len(n) == 4:
        return turn(n[0], n[1:])
    if name == "Skew" and len(n) == 7:
        return skew(n[0], n[1:4], n[4:])
    if name in ("ConcatTransform", "Transform") and len(n) == 16:
        return np.array(n).reshape(4, 4)
    return None


def points(m: Floats, p: Floats) -> Floats:
    """Points of shape (.., 3) under a matrix."""
    found: Floats = p @ m[:3, :3] + m[3, :3]
    return found


def inverse(m: Floats) -> Floats:
    """The inverse of a matrix; of one that has none, the best that there is."""
    found: Floats = np.linalg.pinv(m) if abs(np.linalg.det(m)) < 1e-300 else np.linalg.inv(m)
    return found


def is_mirrored(m: Floats) -> bool:
    return float(np.linalg.det(m[:3, :3])) < 0


def stretch(m: Floats) -> float:
    """A number that no length grows by more under the matrix."""
    return float(np.linalg.norm(m[:3, :3]))
