"""`NuPatch` of any order, with weights or without, as meshes of bicubic Bezier patches.

Each span of knots is a piece, or several, that has the surface's points, derivatives and twists at its corners. For surfaces without
weights and of at most the third degree that is the surface itself; for others it is near, and the pieces are made small enough.
"""
from __future__ import annotations

from collections.abc import Mapping

import numpy as np

from . import nets, trims, variables
from .changes import NEAR, SAME
from .splines import Side, Surface
from .text import Floats, Request, Whole
from .variables import Variable
from .work import Work

NEARNESS = 1e-4
FINEST = 8


def divided(breaks: Floats, parts: int) -> Floats:
    """The breaks with each span in equal parts."""
    steps = np.arange(parts) / parts
    return np.append((breaks[:-1, None] + np.diff(breaks)[:, None] * steps).ravel(), breaks[-1])


def ends(side: Side, cuts: Floats) -> tuple[Floats, Whole]:
    """Both ends of each piece, with the span in which the piece lies."""
    t = np.stack([cuts[:-1], cuts[1:]], axis=1)
    return t.ravel(), np.repeat(side.spans(t.mean(axis=1)), 2)


def hermite(values: Floats, slopes: Floats, cuts: Floats) -> Floats:
    """Bezier points along the first axis: both ends of each piece become four points, of which neighbours share one."""
    step = np.repeat(np.diff(cuts), 2)[:, None, None] / 3
    sign = np.tile([1.0, -1.0], len(cuts) - 1)[:, None, None]
    handles = values + slopes * step * sign
    found = np.zeros((3 * (len(cuts) - 1) + 1, *values.shape[1:]))
    found[0::3] = np.concatenate([values[0::2], values[-1:]])
    found[1::3], found[2::3] = handles[0::2], handles[1::2]
    return found


def net_of(surface: Surface, cuts_u: Floats, cuts_v: Floats) -> Floats:
    """The net of pieces between these parameters, of shape (3 n + 1, 3 m + 1, 3)."""
    s, s_u, s_v, s_uv = surface.at(ends(surface.u, cuts_u), ends(surface.v, cuts_v))
    along, slopes = (np.swapaxes(hermite(np.swapaxes(a, 0, 1), np.swapaxes(b, 0, 1), cuts_u), 0, 1) for a, b in ((s, s_u), (s_v, s_uv)))
    return hermite(along, slopes, cuts_v)


def distance(surface: Surface, net: Floats, cuts_u: Floats, cuts_v: Floats) -> float:
    """How far the middles of the pieces are from the surface, as a part of its size."""
    weights = np.array([1, 3, 3, 1]) / 8
    rows = sum(weight * net[k:len(net) - 3 + k:3] for k, weight in enumerate(weights))
    middles = sum(weight * rows[:, k:net.shape[1] - 3 + k:3] for k, weight in enumerate(weights))
    t_u, t_v = (cuts_u[:-1] + cuts_u[1:]) / 2, (cuts_v[:-1] + cuts_v[1:]) / 2
    real = surface.at((t_u, surface.u.spans(t_u)), (t_v, surface.v.spans(t_v)))[0]
    size = float(np.linalg.norm(np.ptp(net.reshape(-1, 3), axis=0))) or 1.0
    return float(np.linalg.norm(middles - real, axis=-1).max()) / size


def pieces(surface: Surface) -> tuple[Floats, Floats, Floats]:
    """The net of pieces that are near enough, and their parameters."""
    parts = 1
    while True:
        cuts_u, cuts_v = divided(surface.u.breaks(), parts), divided(surface.v.breaks(), parts)
        net = net_of(surface, cuts_u, cuts_v)
        if surface.is_exact() or parts == FINEST or len(cuts_u) * len(cuts_v) > 16384 or distance(surface, net, cuts_u, cuts_v) < NEARNESS:
            return net, cuts_u, cuts_v
        parts *= 2


def read(work: Work, request: Request) -> tuple[Surface, Mapping[str, Variable]] | None:
    """The surface of a request and its variables, or None where its counts don't fit."""
    sides = []
    for at in (0, 5):
        (count,), (order,), knots = request.whole(at), request.whole(at + 1), request.array(at + 2)
        (low,), (high,) = request.array(at + 3), request.array(at + 4)
        if not 2 <= order <= 32 or count < order or len(knots) != count + order or (np.diff(knots) < 0).any():
            return None
        low, high = max(low, knots[order - 1]), min(high, knots[count])
        if low >= high:
            return None
        sides.append(Side(count, order, knots, float(low), float(high)))
    held = work.variables(request, 10)
    name = next((it for it in ("Pw", "P") if it in held), None)
    if name is None or len(held[name]) != sides[0].count * sides[1].count or held[name].kind.width not in (3, 4):
        return None
    rows = held[name].numbers()
    if rows.shape[1] == 3:
        rows = np.concatenate([rows, np.ones((len(rows), 1))], axis=1)
    others = {key: it for key, it in held.items() if key not in ("P", "Pw")}
    return Surface(sides[0], sides[1], rows.reshape(sides[1].count, sides[0].count, 4)), others


def corner_values(surface: Surface, cuts_u: Floats, cuts_v: Floats, it: Variable) -> variables.Values:
    """The values of a variable at the corners of the pieces."""
    u, v = surface.u, surface.v
    width = u.count
    if it.kind.of == "vertex" and len(it) == u.count * v.count:
        (places_u, rows_u, _), (places_v, rows_v, _) = u.basis(cuts_u, u.spans(cuts_u)), v.basis(cuts_v, v.spans(cuts_v))
    else:
        width, height = u.count - u.order + 2, v.count - v.order + 2
        if len(it) != width * height:
            t_u, t_v = np.meshgrid((cuts_u - u.low) / (u.high - u.low), (cuts_v - v.low) / (v.high - v.low))
            return nets.bilinear(it, t_u.ravel(), t_v.ravel())
        (places_u, rows_u), (places_v, rows_v) = between(u, cuts_u), between(v, cuts_v)
    weights = np.einsum("vj,ui->vuji", rows_v, rows_u).reshape(len(cuts_u) * len(cuts_v), -1)
    places = (places_v[:, None, :, None] * width + places_u[None, :, None, :]).reshape(weights.shape)
    return variables.blend(it, weights, places)


def between(side: Side, t: Floats) -> tuple[Whole, Floats]:
    """For values at the ends of spans: the two that count at each parameter, and their weights."""
    span = side.spans(t)
    low, high = side.knots[span], side.knots[span + 1]
    part = np.divide(t - low, high - low, out=np.zeros(len(t)), where=high > low)
    first = span - side.order + 1
    return np.stack([first, first + 1], axis=1), np.stack([1 - part, part], axis=1)


def texture_places(surface: Surface, cuts_u: Floats, cuts_v: Floats) -> Variable:
    """s and t as the parameters go, where the pieces aren't of one size."""
    u, v = np.meshgrid((cuts_u - surface.u.low) / (surface.u.high - surface.u.low), (cuts_v - surface.v.low) / (surface.v.high - surface.v.low))
    return Variable("st", "st", variables.Kind("varying", "float", 2), np.stack([u.ravel(), v.ravel()], axis=1))


def as_patches(work: Work, request: Request) -> list[Request] | None:
    """A NURBS surface as a mesh of patches, or trimmed as polygons."""
    found = read(work, request)
    if found is None:
        return None
    surface, others = found
    if work.state.attributes.trims:
        if work.tell(NEAR, request, "a trimmed `NuPatch` drawn as polygons of a fine grid, with its edge moved to the curve"):
            return trims.drawn(work, request, surface, work.state.attributes.trims, others)
        return None
    if surface.is_exact():
        work.tell(SAME, request, "`NuPatch` turned into Bezier patches")
    elif not work.tell(NEAR, request, "`NuPatch` with weights or of a higher degree drawn as bicubic patches, within a ten-thousandth of its size"):
        return None
    net, cuts_u, cuts_v = pieces(surface)
    if not {"s", "t", "st"} & set(others) and not (is_even(cuts_u) and is_even(cuts_v)):
        others = {**others, "st": texture_places(surface, cuts_u, cuts_v)}
    return nets.mesh(work, request, net, others, lambda it: corner_values(surface, cuts_u, cuts_v, it))


def is_even(cuts: Floats) -> bool:
    steps = np.diff(cuts)
    return bool(np.allclose(steps, steps[0], rtol=1e-6))


PASSES = {"NuPatch": (as_patches,), "TrimCurve": (trims.kept,)}
