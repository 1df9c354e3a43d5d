"""What a scene has that shadows need: its camera, its lights, and points over each of its primitives, all in world space."""
from __future__ import annotations

import math
from collections.abc import Callable, Iterator, Mapping, Sequence
from dataclasses import dataclass, field

import numpy as np

from reyes.bring import matrices, state
from reyes.bring.text import Floats, Request
from reyes.errors import Trouble

FINE = 48  # rows of points over a flat patch: enough to know what is seen of it


@dataclass(frozen=True)
class Shape:
    """A primitive: the place of its request, its surface, points over it in world space of shape (n, 3) (the control points of a curved
    patch, which lies among them), and what counts for its shadow.
    """

    place: int
    surface: str
    points: Floats
    casts: bool
    displaced: bool
    opaque: bool


@dataclass(frozen=True)
class Lamp:
    """A light: its handle, its shader, the values that its request gives, and the map from its shader's space to world space."""

    handle: int
    shader: str
    values: Mapping[str, Floats]
    to_world: Floats


@dataclass
class Scene:
    """The one world of a scene: its requests, the places of WorldBegin and WorldEnd, the camera, and what stands in the world."""

    row: list[Request]
    begin: int = -1
    end: int = -1
    to_camera: Floats = field(default_factory=lambda: matrices.IDENTITY)
    options: state.Options = field(default_factory=state.Options)
    shapes: list[Shape] = field(default_factory=list)
    lamps: list[Lamp] = field(default_factory=list)

    @property
    def unit(self) -> float:
        """How long a unit of world space is in camera space."""
        return float(np.linalg.norm(self.to_camera[0, :3]))

    def seen(self) -> Floats:
        """The points that the camera would see, with some room, if nothing stood before them."""
        left, right, bottom, top = self.options.window()
        room = 0.08 * max(right - left, top - bottom)
        every = np.concatenate([np.zeros((0, 3)), *(it.points for it in self.shapes)])
        eye = matrices.points(self.to_camera, every)
        deep = eye[:, 2] * self.options.slope() if self.options.perspective else np.ones(len(eye))
        ahead = eye[:, 2] > 1e-3
        with np.errstate(divide="ignore", invalid="ignore"):
            x, y = eye[:, 0] / deep, eye[:, 1] / deep
        inside = (x > left - room) & (x < right + room) & (y > bottom - room) & (y < top + room)
        found: Floats = every[ahead & inside]
        return found


def read(row: Sequence[Request], throws: Callable[[str], bool]) -> Scene:
    """What the requests of an accepted scene say; `throws` says of a surface whether what wears it throws a shadow. Raises Trouble where
    there isn't one world.
    """
    scene, reader = Scene(list(row)), _Reader(throws)
    for place, it in enumerate(scene.row):
        if it.name == "WorldBegin":
            if scene.begin >= 0:
                raise Trouble("shadows are drawn of one world at a time: --frames doesn't choose here, so give the scene of one frame")
            scene.begin, scene.to_camera, scene.options = place, reader.state.maps[0], reader.state.options
        elif it.name == "WorldEnd":
            scene.end = place
        elif it.name == "LightSource":
            scene.lamps += reader.lamp(it)
        elif it.name in POINTS and scene.begin >= 0 and reader.counts():
            scene.shapes.append(reader.shape(place, it))
        reader.follow(it)
    if scene.end < 0:
        raise Trouble("the scene has no world to light")
    return scene


class _Reader:
    """The state that is followed: transformations, and the attributes that count for shadows with those that blocks saved."""

    def __init__(self, throws: Callable[[str], bool]) -> None:
        self.state, self.throws = state.State(), throws
        self.surface, self.displaced, self.opaque, self.casts = "", False, True, True
        self.saved: list[tuple[str, bool, bool, bool]] = []

    def follow(self, it: Request) -> None:
        self.state.follow(it)
        if it.name in state.BLOCKS and it.name != "TransformBegin":
            self.saved.append((self.surface, self.displaced, self.opaque, self.casts))
        elif it.name in state.ENDS and it.name != "TransformEnd" and self.saved:
            self.surface, self.displaced, self.opaque, self.casts = self.saved.pop()
        elif it.name == "Surface":
            self.surface = it.word(0) or ""
        elif it.name == "Displacement":
            self.displaced = True
        elif it.name == "Opacity":
            self.opaque = min(it.numbers(), default=1) >= 1
        elif it.name == "Attribute" and it.word(0) == "visibility":
            self.casts = bool(values(it, 1).get("transmission", np.ones(1))[0])

    def counts(self) -> bool:
        """Whether the next primitive is one of its own: in a motion block only the first is."""
        return self.state.place in (None, 0)

    def shape(self, place: int, it: Request) -> Shape:
        points = matrices.points(self.state.maps[0], POINTS[it.name](it))
        return Shape(place, self.surface, points, self.casts and self.throws(self.surface), self.displaced, self.opaque)

    def lamp(self, it: Request) -> Iterator[Lamp]:
        handle = it.array(1)
        if len(handle) == 1:
            yield Lamp(int(handle[0]), it.word(0) or "", values(it, 2), self.state.maps[0])


def values(it: Request, start: int) -> dict[str, Floats]:
    """The numbers of a list of tokens and values, by the last word of each token."""
    found: dict[str, Floats] = {}
    for at in range(start, len(it.args) - 1, 2):
        token, value = it.args[at], it.args[at + 1]
        if isinstance(token, str) and token.split() and isinstance(value, (float, np.ndarray)):
            found[token.split()[-1]] = np.atleast_1d(np.asarray(value, dtype=float))
    return found


def _positions(it: Request, start: int) -> Floats:
    """The points of a primitive's P."""
    p = values(it, start).get("P", np.zeros(0))
    found: Floats = p[: len(p) // 3 * 3].reshape(-1, 3)
    return found


def sheet(corners: Floats, fine: int) -> Floats:
    """Points over the bilinear patch of four corners, u fastest."""
    u, v = np.meshgrid(np.linspace(0, 1, fine + 1), np.linspace(0, 1, fine + 1))
    weights = np.stack([(1 - u) * (1 - v), u * (1 - v), (1 - u) * v, u * v], axis=-1).reshape(-1, 4)
    found: Floats = weights @ corners
    return found


def _patch(it: Request) -> Floats:
    p = _positions(it, 1)
    return sheet(p, FINE) if it.word(0) == "bilinear" and len(p) == 4 else p


def _mesh(it: Request) -> Floats:
    p, across = _positions(it, 5), it.array(1)
    if it.word(0) != "bilinear" or len(across) != 1 or len(p) > 200:
        return p
    wide = int(across[0])
    cells = [p[[at, at + 1, at + wide, at + wide + 1]] for at in range(len(p) - wide - 1) if at % wide != wide - 1]
    return np.concatenate([p, *(sheet(it, 12) for it in cells)])


def _polygon(it: Request) -> Floats:
    p = _positions(it, 0)
    return _fans(p, [list(range(len(p)))])


def _polygons(it: Request) -> Floats:
    p, counts, corners = _positions(it, 2), it.array(0), it.array(1).astype(int)
    if len(counts) > 60:
        return p
    ends = np.cumsum(counts).astype(int)
    return _fans(p, [list(corners[end - int(count) : end]) for end, count in zip(ends, counts)])


def _fans(p: Floats, faces: Sequence[Sequence[int]]) -> Floats:
    """Points over polygons, as triangles about the first corner of each."""
    triangles = [(face[0], one, face[0], two) for face in faces for one, two in zip(face[1:], face[2:]) if max(face) < len(p)]
    return np.concatenate([p, *(sheet(p[list(it)], 24) for it in triangles)])


def _rings(rings: Sequence[tuple[float, float]]) -> Floats:
    """Points on circles about the z axis, each of a radius at a height."""
    turn = np.linspace(0, 2 * math.pi, 64, endpoint=False)
    return np.concatenate([np.stack([r * np.cos(turn), r * np.sin(turn), np.full(64, z)], axis=1) for r, z in rings])


def _sphere(it: Request) -> Floats:
    radius = (*it.numbers(), 1.0)[0]
    return _rings([(radius * math.cos(a), radius * math.sin(a)) for a in np.linspace(-math.pi / 2, math.pi / 2, 13)])


def _cylinder(it: Request) -> Floats:
    radius, low, high = (*it.numbers(), 1.0, 0.0, 1.0)[:3]
    return _rings([(radius, z) for z in np.linspace(low, high, 17)])


def _cone(it: Request) -> Floats:
    height, radius = (*it.numbers(), 1.0, 1.0)[:2]
    return _rings([(radius * (1 - part), height * part) for part in np.linspace(0, 1, 13)])


def _disk(it: Request) -> Floats:
    height, radius = (*it.numbers(), 0.0, 1.0)[:2]
    return _rings([(radius * part, height) for part in np.linspace(0, 1, 25)])


# Points over each kind of primitive, in its own space.
POINTS: Mapping[str, Callable[[Request], Floats]] = {
    "Patch": _patch, "PatchMesh": _mesh, "Polygon": _polygon, "PointsPolygons": _polygons,
    "Sphere": _sphere, "Cylinder": _cylinder, "Cone": _cone, "Disk": _disk,
}
