"""`Curves` as ribbons that face the camera, `Points` as discs that do, and the bodies of a `Blobby` by themselves."""
from __future__ import annotations

from collections.abc import Mapping
from dataclasses import dataclass

import numpy as np

from . import matrices, nets, variables
from .changes import LEFT, NEAR
from .matrices import unit
from .state import BASES
from .text import Floats, Request
from .variables import Variable
from .work import Work

THIRDS = np.array([0, 1 / 3, 2 / 3, 1])
CORNERS = ((5000, 8), (16000, 6), (0, 4))


class View:
    """How the camera sees object space: what is needed to turn a ribbon or a disc to it."""

    def __init__(self, work: Work) -> None:
        self.to = work.state.to_camera()
        self.back = matrices.inverse(self.to)[:3, :3]
        self.scale = abs(float(np.linalg.det(self.to[:3, :3]))) ** (1 / 3)
        self.perspective = work.state.options.perspective

    def looks(self, p: Floats) -> Floats:
        """The directions in camera space in which points are seen."""
        seen = matrices.points(self.to, p)
        return unit(seen) if self.perspective else np.broadcast_to(np.array([0.0, 0.0, 1.0]), seen.shape)

    def sides(self, p: Floats, along: Floats) -> Floats:
        """Vectors of object space that have the length 1 there, lie across curves and at right angles to the view."""
        across = unit(np.cross(along @ self.to[:3, :3], self.looks(p)))
        found: Floats = across * self.scale @ self.back
        return found


@dataclass(frozen=True)
class Curve:
    """One curve of a request: its own number, its points among all, its values among those at the ends of segments, and its segments."""

    which: int
    first: int
    count: int
    first_end: int
    segments: int
    periodic: bool
    cubic: bool

    @property
    def ends(self) -> int:
        """How many values there are at the ends of segments."""
        return self.segments if self.periodic else self.segments + 1


def curves_of(work: Work, request: Request) -> list[Curve]:
    cubic, periodic, step = request.word(0) == "cubic", request.word(2) == "periodic", work.state.attributes.basis.v_step
    found, first, first_end = [], 0, 0
    for which, count in enumerate(request.whole(1)):
        segments = count - 1 + periodic if not cubic else count // step if periodic else (count - 4) // step + 1
        if segments < 1 or cubic and count < 4:
            raise ValueError("a curve of too few points")
        it = Curve(which, first, count, first_end, segments, periodic, cubic)
        found.append(it)
        first, first_end = first + count, first_end + it.ends
    return found


def at_ends(work: Work, it: Variable, curve: Curve) -> variables.Values:
    """A variable's values at the ends of a curve's segments."""
    ends = np.arange(curve.segments + 1)
    if it.kind.of == "constant" or len(it) == 1:
        return it.taken(np.zeros(len(ends)))
    if it.kind.of == "uniform":
        return it.taken(np.full(len(ends), curve.which))
    if it.kind.of == "vertex" and curve.cubic:
        step, conversion = work.state.attributes.basis.v_step, to_bezier(work)
        last = np.arange(curve.segments)[-1] * step
        places = np.concatenate([ends[:-1, None] * step + np.arange(4), [last + np.arange(4)]]) % curve.count + curve.first
        weights = np.concatenate([np.tile(conversion[0], (curve.segments, 1)), conversion[3:]])
        return variables.blend(it, weights, places)
    own, first = (curve.count, curve.first) if not curve.cubic else (curve.ends, curve.first_end)
    return it.taken(ends % own + first)


def to_bezier(work: Work) -> Floats:
    found: Floats = np.linalg.inv(BASES["bezier"]) @ work.state.attributes.basis.v
    return found


def width_of(held: Mapping[str, Variable]) -> Variable:
    found = held.get("width") or held.get("constantwidth")
    return found or Variable("", "width", variables.Kind("constant", "float"), np.ones((1, 1)))


def centre(work: Work, points: Floats, curve: Curve) -> tuple[Floats, Floats]:
    """A curve's points, for a cubic one those of its Bezier pieces, and the directions along it there."""
    own = points[curve.first:curve.first + curve.count]
    if not curve.cubic:
        chain = np.concatenate([own, own[:1]]) if curve.periodic else own
        return chain, np.gradient(chain, axis=0)
    step, conversion = work.state.attributes.basis.v_step, to_bezier(work)
    places = (np.arange(curve.segments)[:, None] * step + np.arange(4)) % curve.count
    bezier = np.einsum("ij,sjx->six", conversion, own[places])
    slopes = np.gradient(bezier, axis=1)
    chain = np.concatenate([bezier[:, :3].reshape(-1, 3), bezier[-1:, 3]])
    return chain, np.concatenate([slopes[:, :3].reshape(-1, 3), slopes[-1:, 3]])


def ribbon(work: Work, request: Request, view: View, held: Mapping[str, Variable], curve: Curve) -> Request:
    """The mesh of one curve: across it u, along it v."""
    points = held["P"].numbers()
    chain, along = centre(work, points, curve)
    widths = np.asarray(at_ends(work, width_of(held), curve), dtype=float)[:, 0]
    if curve.cubic:
        widths = np.interp(np.linspace(0, curve.segments, len(chain)), np.arange(curve.segments + 1), widths)
    half = view.sides(chain, along) * widths[:, None] / 2
    made = [it.of("varying", doubled(at_ends(work, it, curve)))
            for it in held.values() if it.name not in ("P", "width", "constantwidth") and not it.kind.of == "constant"]
    made += [it for it in held.values() if it.kind.of == "constant" and it.name != "constantwidth"]
    if curve.cubic:
        net = np.stack([chain - half + 2 * half * part for part in THIRDS], axis=1)
        sizes = (4.0, "nonperiodic", float(len(chain)), "nonperiodic")
        return request.made("PatchMesh", "bicubic", *sizes, "P", net.ravel(), *variables.put(made))
    net = np.stack([chain - half, chain + half], axis=1)
    return request.made("PatchMesh", "bilinear", 2.0, "nonperiodic", float(len(chain)), "nonperiodic", "P", net.ravel(), *variables.put(made))


def doubled(values: variables.Values) -> variables.Values:
    """Each value twice: for both edges of a ribbon."""
    return np.repeat(values, 2, axis=0) if isinstance(values, np.ndarray) else [it for it in values for _ in (0, 1)]


def as_ribbons(work: Work, request: Request) -> list[Request] | None:
    held = work.variables(request, 3)
    if "P" not in held or not work.tell(NEAR, request, "`Curves` drawn as ribbons that face the camera"):
        return None
    view = View(work)
    found = [ribbon(work, request, view, held, curve) for curve in curves_of(work, request)]
    return nets.in_bezier(work, request, found) if request.word(0) == "cubic" else found


def as_discs(work: Work, request: Request) -> list[Request] | None:
    """Points as regular polygons of eight corners, of less where there are many."""
    held = work.variables(request)
    if "P" not in held or not work.tell(NEAR, request, "`Points` drawn as discs of eight corners or less that face the camera"):
        return None
    view, points = View(work), held["P"].numbers()
    count = next(corners for most, corners in CORNERS if len(points) <= most or not most)
    width = width_of(held).numbers()[:, 0] / 2
    looks = view.looks(points)
    x = unit(np.cross(np.where(np.abs(looks[:, 1:2]) < 0.9, [[0, 1.0, 0]], [[1.0, 0, 0]]), looks))
    y = np.cross(looks, x)
    angles = (np.arange(count) + 0.5) * 2 * np.pi / count
    round_ = np.cos(angles)[None, :, None] * x[:, None] + np.sin(angles)[None, :, None] * y[:, None]
    corners = points[:, None] + round_ * view.scale @ view.back * np.broadcast_to(width, len(points))[:, None, None]
    made = [Variable("P", "P", variables.START["P"], corners.reshape(-1, 3))]
    for it in held.values():
        if it.name not in ("P", "width", "constantwidth"):
            made.append(it.of("uniform", it.values) if len(it) == len(points) else it.of("constant", it.taken([0])))
    sizes = np.full(len(points), float(count))
    return [request.made("PointsPolygons", sizes, np.arange(len(points) * count, dtype=float), *variables.put(made))]


def bodies(work: Work, request: Request) -> list[Request] | None:
    """The ellipsoids of a `Blobby`, each of the size that it has where no other is near."""
    if not work.tell(LEFT, request, "`Blobby`: its ellipsoids drawn by themselves, not blended, and its other parts left out"):
        return None
    code, numbers, found, at = request.whole(1), request.array(2), list[Request](), 0
    while at < len(code):
        operation = code[at]
        if operation == 1001:
            matrix = numbers[code[at + 1]:code[at + 1] + 16]
            if len(matrix) == 16 and abs(np.linalg.det(matrix.reshape(4, 4))) > 0:
                found += [request.made("AttributeBegin"), request.made("ConcatTransform", matrix),
                          request.made("Sphere", 0.5, -0.5, 0.5, 360.0), request.made("AttributeEnd")]
        sizes = {1000: 2, 1001: 2, 1002: 2, 1003: 5, 4: 3, 5: 3, 6: 2, 7: 2}
        at += 2 + code[at + 1] if operation in (0, 1, 2, 3) else sizes.get(operation, 2)
    return found


PASSES = {"Curves": (as_ribbons,), "Points": (as_discs,), "Blobby": (bodies,)}
