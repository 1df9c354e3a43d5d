"""Quadrics that the profile doesn't have, as meshes of bicubic patches: parts of spheres, cylinders, cones and disks, and whole or part
tori, hyperboloids and paraboloids. Arcs are in pieces of at most 45 degrees, whose distance from the circle is 4 millionths of its radius.
"""
from __future__ import annotations

import math
from collections.abc import Sequence

import numpy as np

from . import nets, variables
from .changes import NEAR
from .text import Floats, Request
from .work import Work

SIZES = {"Sphere": 4, "Cylinder": 4, "Cone": 3, "Disk": 3, "Torus": 5, "Hyperboloid": 7, "Paraboloid": 4}
PIECE = math.radians(45)


def arc(begin: float, end: float) -> Floats:
    """A chain of cubic pieces along the unit circle, of shape (3 n + 1, 2), from one angle to another, once round at most."""
    end = begin + max(-2 * math.pi, min(2 * math.pi, end - begin))
    count = max(1, math.ceil(abs(end - begin) / PIECE - 1e-9))
    angles = np.linspace(begin, end, count + 1)
    handle = 4 / 3 * math.tan((end - begin) / count / 4)
    on = np.stack([np.cos(angles), np.sin(angles)], axis=1)
    along = handle * np.stack([-on[:, 1], on[:, 0]], axis=1)
    chain = np.zeros((3 * count + 1, 2))
    chain[0::3], chain[1::3], chain[2::3] = on, (on + along)[:-1], (on - along)[1:]
    return chain


def straight(a: Sequence[float], b: Sequence[float]) -> Floats:
    first, last = np.array(a, dtype=float), np.array(b, dtype=float)
    found: Floats = first + (last - first) * np.linspace(0, 1, 4)[:, None]
    return found


def heights(radius: float, low: float, high: float) -> Floats:
    """The meridian of a sphere between two heights, in the plane of x and z."""
    bounds = [math.asin(max(-1.0, min(1.0, it / radius))) for it in (low, high)]
    chain = radius * arc(*bounds)
    return np.stack([chain[:, 0], np.zeros(len(chain)), chain[:, 1]], axis=1)


def parabola(radius: float, low: float, high: float) -> Floats:
    """The meridian of a paraboloid whose radius is given at the greater height: exact, as a cubic."""
    begin, end = (radius * math.sqrt(max(0.0, it / high)) if high else 0.0 for it in (low, high))
    first, last = np.array([begin, 0, low]), np.array([end, 0, high])
    middle = np.array([(begin + end) / 2, 0, high * begin * end / (radius * radius)])
    return np.array([first, first + (middle - first) * 2 / 3, last + (middle - last) * 2 / 3, last])


def meridian(name: str, n: Sequence[float]) -> Floats:
    """The curve that goes round the z axis, as a chain of cubic pieces of shape (3 n + 1, 3)."""
    if name == "Sphere":
        return heights(n[0], n[1], n[2])
    if name == "Cylinder":
        return straight([n[0], 0, n[1]], [n[0], 0, n[2]])
    if name == "Cone":
        return straight([n[1], 0, 0], [0, 0, n[0]])
    if name == "Disk":
        return straight([n[1], 0, n[0]], [0, 0, n[0]])
    if name == "Hyperboloid":
        return straight(n[0:3], n[3:6])
    if name == "Paraboloid":
        return parabola(n[0], n[1], n[2])
    chain = n[1] * arc(math.radians(n[2]), math.radians(n[3]))
    return np.stack([n[0] + chain[:, 0], np.zeros(len(chain)), chain[:, 1]], axis=1)


def revolved(curve: Floats, angle: float) -> Floats:
    """The net of a curve that goes round the z axis: rows along the curve, columns around."""
    around = arc(0, math.radians(max(-360.0, min(360.0, angle))))
    x, y, z = curve.T
    c, s = around.T
    return np.stack([np.outer(x, c) - np.outer(y, s), np.outer(x, s) + np.outer(y, c), np.outer(z, np.ones(len(c)))], axis=2)


def is_whole(name: str, n: Sequence[float]) -> bool:
    """Whether the profile has it."""
    if n[-1] != 360:
        return False
    if name == "Sphere":
        return n[0] > 0 and n[1] <= -n[0] and n[2] >= n[0]
    return name == "Cylinder" and n[0] > 0 or name in ("Cone", "Disk") and n[1] > 0


def as_patches(work: Work, request: Request) -> list[Request] | None:
    """A quadric as a mesh, where the profile doesn't have it or where its size moves."""
    name, n = request.name, request.numbers()
    if len(n) != SIZES[name] or is_whole(name, n) and not work.moving or name == "Sphere" and n[0] == 0 or name == "Paraboloid" and n[0] == 0:
        return None
    if not work.tell(NEAR, request, f"`{name}` drawn as bicubic patches, within 5 millionths of its size"):
        return None
    start = next((at for at, it in enumerate(request.args) if isinstance(it, (str, list))), len(request.args))
    others = {name: it for name, it in work.variables(request, start).items() if name != "P"}
    return nets.mesh(work, request, revolved(meridian(name, n), n[-1]), others)


PASSES = {name: (as_patches,) for name in SIZES}
