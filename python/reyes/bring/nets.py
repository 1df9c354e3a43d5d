"""Meshes of bicubic Bezier patches as requests, with the values of variables at the corners of the patches."""
from __future__ import annotations

from collections.abc import Callable, Mapping, Sequence

import numpy as np

from . import variables
from .state import BASES
from .text import Floats, Request
from .variables import Variable
from .work import Work

# How far a row of points that are one point is drawn apart, of the way to the next row: a patch has no normal where it has no width.
OPENED = 1 / 512
STEP = 1 / 65536
Corners = Callable[[Variable], variables.Values]


def opened(net: Floats, across: int, down: int) -> Floats:
    """A net of shape (rows, columns, 3) in which no side of a patch is one point: such a side, along the first or last row or column, or
    between patches, goes a little of the way to its neighbours. `across` and `down` are the numbers of patches along u and v."""
    found = net.copy()
    for axis, count in ((0, down), (1, across)):
        rows = np.moveaxis(found, axis, 0)
        for at, to in [(0, 1), (3 * count, 3 * count - 1)]:
            side = rows[at]
            for k in range(0, len(side) - 1, 3):
                part, near = side[k:k + 4], rows[to][k:k + 4]
                if np.abs(part - part[0]).max() < STEP and np.abs(near - part).max() > STEP:
                    rows[at][k:k + 4] = part + (near - part) * OPENED
    return found


def bilinear(values: Variable, u: Floats, v: Floats) -> variables.Values:
    """The bilinear values at points of the unit square, of four at its corners, or the one that there is."""
    if len(values) < 4:
        return values.taken(np.zeros(len(u)))
    weights = np.stack([(1 - u) * (1 - v), u * (1 - v), (1 - u) * v, u * v], axis=1)
    return variables.blend(values, weights, np.tile(np.arange(4), (len(u), 1)))


def grid(across: int, down: int) -> tuple[Floats, Floats]:
    """u and v of the corners of a mesh of patches, u fastest."""
    u, v = np.meshgrid(np.linspace(0, 1, across + 1), np.linspace(0, 1, down + 1))
    return u.ravel(), v.ravel()


def mesh(work: Work, old: Request, net: Floats, others: Mapping[str, Variable], corners: Corners | None = None) -> list[Request]:
    """A bicubic mesh of a net of shape (3 n + 1, 3 m + 1, 3) in the place of a request. Variables have their values at the corners of
    patches by `corners`, else as the four of the whole say."""
    down, across = (net.shape[0] - 1) // 3, (net.shape[1] - 1) // 3
    u, v = grid(across, down)
    held = []
    for it in others.values():
        if it.kind.of == "constant" or it.kind.of == "uniform" and len(it) == 1:
            held.append(it.of("constant", it.taken([0])))
        elif it.kind.of != "uniform":
            held.append(it.of("varying", corners(it) if corners else bilinear(it, u, v)))
    net = opened(net, across, down)
    sizes = (float(net.shape[1]), "nonperiodic", float(net.shape[0]), "nonperiodic")
    made = old.made("PatchMesh", "bicubic", *sizes, "P", net.ravel(), *variables.put(held))
    if across == down == 1:
        made = old.made("Patch", "bicubic", "P", net.ravel(), *variables.put(held))
    return in_bezier(work, old, [made])


def in_bezier(work: Work, old: Request, made: Sequence[Request]) -> list[Request]:
    """Requests under the basis "bezier": in a block of their own, where another one is in force."""
    basis = work.state.attributes.basis
    if basis.u is BASES["bezier"] and basis.v is BASES["bezier"] and basis.u_step == basis.v_step == 3:
        return list(made)
    return [old.made("AttributeBegin"), old.made("Basis", "bezier", 3.0, "bezier", 3.0), *made, old.made("AttributeEnd")]
