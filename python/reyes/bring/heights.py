"""Patches and meshes that are given as heights alone, by `Pz`: their x and y are the parameters u and v."""
from __future__ import annotations

from collections.abc import Sequence

import numpy as np

from .changes import SAME
from .state import BASES
from .text import Floats, Request
from .work import Work

# Bases whose control points lie on a line, evenly, where the curve does: how many of these lie before the curve's begin.
EVEN = (("bezier", 3, 0), ("b-spline", 1, 1), ("catmull-rom", 1, 1))


def points(work: Work, request: Request) -> list[Request] | None:
    """The points of a patch or mesh, in the place of its heights."""
    start = 1 if request.name == "Patch" else 5
    held = work.variables(request, start)
    if "Pz" not in held or held["Pz"].kind.width != 1 or "P" in held or "Pw" in held:
        return None
    heights = held["Pz"].numbers().ravel()
    if request.name == "Patch":
        sizes: Sequence[int] = (4, 4) if request.word(0) == "bicubic" else (2, 2)
    else:
        sizes = (request.whole(1)[0], request.whole(3)[0])
        if "periodic" in (request.word(2), request.word(4)):
            return None
    basis = work.state.attributes.basis
    across, up = (along(request.word(0), count, *of) for count, of in zip(sizes, ((basis.u, basis.u_step), (basis.v, basis.v_step))))
    if across is None or up is None or len(heights) != len(across) * len(up):
        return None
    work.tell(SAME, request, "heights `Pz` as points, whose x and y are u and v")
    found = np.stack([np.tile(across, len(up)), np.repeat(up, len(across)), heights], axis=1)
    at = next(k for k in range(start, len(request.args), 2) if (request.word(k) or "").split()[-1:] == ["Pz"])
    return [request.made(request.name, *request.args[:at], "P", found.ravel(), *request.args[at + 2 :])]


def along(form: str | None, count: int, matrix: Floats, step: int) -> Floats | None:
    """The places of so many control points in one direction, between which the surface goes from 0 to 1; None where no places do that."""
    if form == "bilinear" and count > 1:
        return np.linspace(0, 1, count)
    for name, wanted, before in EVEN:
        inner = count - 1 - 2 * before
        if form == "bicubic" and step == wanted and inner > 0 and np.array_equal(matrix, BASES[name]):
            return (np.arange(count) - before) / inner
    return None
