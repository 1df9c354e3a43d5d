"""The graphics state as far as passes need it: transformations, options, and the attributes that change what a primitive becomes."""
from __future__ import annotations

import math
from collections.abc import Iterable, Mapping
from dataclasses import dataclass, field, replace

import numpy as np

from . import matrices, screens
from .matrices import IDENTITY
from .text import Floats, Request

BLOCKS = {"FrameBegin": "FrameEnd", "WorldBegin": "WorldEnd", "AttributeBegin": "AttributeEnd", "TransformBegin": "TransformEnd", "SolidBegin": "SolidEnd"}
ENDS = frozenset(BLOCKS.values())
MOVES = frozenset(("Translate", "Rotate", "Scale", "Skew", "ConcatTransform", "Transform", "Identity"))
BASES: Mapping[str, Floats] = {
    "bezier": np.array([[-1, 3, -3, 1], [3, -6, 3, 0], [-3, 3, 0, 0], [1, 0, 0, 0.]]),
    "b-spline": np.array([[-1, 3, -3, 1], [3, -6, 3, 0], [-3, 0, 3, 0], [1, 4, 1, 0.]]) / 6,
    "catmull-rom": np.array([[-1, 3, -3, 1], [2, -5, 4, -1], [-1, 0, 1, 0], [0, 2, 0, 0.]]) / 2,
    "hermite": np.array([[2, 1, -2, 1], [-3, -2, 3, -1], [0, 1, 0, 0], [1, 0, 0, 0.]]),
    "power": np.eye(4),
}
MOST_SPACES = 4096


@dataclass(frozen=True)
class Basis:
    """A basis along u and one along v, each with its step."""

    u: Floats = field(default_factory=lambda: BASES["bezier"])
    u_step: int = 3
    v: Floats = field(default_factory=lambda: BASES["bezier"])
    v_step: int = 3


@dataclass(frozen=True)
class Attributes:
    """What blocks of attributes save besides the transformation."""

    basis: Basis = field(default_factory=Basis)
    sides: int = 2
    inside: bool = False
    lights: frozenset[float] = frozenset()
    taken: Mapping[str, frozenset[str]] = field(default_factory=dict)
    own_basis: bool = False
    hidden: bool = False
    size: float = float("inf")
    trims: tuple[Floats, ...] = ()
    trim_outside: bool = False
    corners: tuple[float, ...] = ()
    color: tuple[float, ...] = (1.0, 1.0, 1.0)


@dataclass(frozen=True)
class Options:
    """The camera as far as it is needed to look at things, and how colours are given."""

    width: float = 640
    height: float = 480
    aspect: float = 0
    screen: tuple[float, ...] = ()
    perspective: bool = False
    fov: float = 90
    far: float = 32767
    detail: float = 1
    samples: tuple[tuple[float, ...], ...] = ()

    def window(self) -> tuple[float, ...]:
        """The screen window: left, right, bottom, top."""
        ratio = self.aspect or self.width / self.height
        default = (-ratio, ratio, -1.0, 1.0) if ratio >= 1 else (-1.0, 1.0, -1 / ratio, 1 / ratio)
        return self.screen or default

    def slope(self) -> float:
        """How far from the axis the window's 1 is, at a depth of 1."""
        return math.tan(math.radians(self.fov) / 2) if self.perspective else 1.0


@dataclass(frozen=True)
class Saved:
    name: str
    maps: tuple[Floats, Floats]
    world: tuple[Floats, Floats] | None
    attributes: Attributes
    options: Options


class State:
    """The state at one request. There are two transformations: at the first time of motions, and at the last."""

    def __init__(self) -> None:
        self.maps: tuple[Floats, Floats] = (IDENTITY, IDENTITY)
        self.world: tuple[Floats, Floats] | None = None
        self.attributes, self.options = Attributes(), Options()
        self.saved: list[Saved] = []
        self.place: int | None = None
        self.spaces: dict[str, Floats] = {}

    def to_camera(self, time: int = 0) -> Floats:
        """The map from object space to camera space (before a world the one to camera space so far)."""
        found: Floats = self.maps[time] @ self.world[time] if self.world else self.maps[time]
        return found

    def space(self, name: str) -> None:
        """Gives the coordinate system in force a name."""
        if len(self.spaces) < MOST_SPACES:
            self.spaces[name] = self.to_camera()

    def set(self, **values: object) -> None:
        self.attributes = replace(self.attributes, **values)

    def option(self, **values: object) -> None:
        self.options = replace(self.options, **values)

    def change(self, step: Floats, whole: bool = False) -> None:
        """Puts a matrix before the current ones, or in their place: outside of a motion block both, in one that of its time."""
        first, last = self.maps
        old = [step if whole else step @ it if self.place in (None, time) else it for time, it in enumerate((first, last))]
        if whole:
            old = [step if self.place in (None, time) else it for time, it in enumerate((first, last))]
        self.maps = (old[0], old[1])

    def follow(self, request: Request) -> None:
        """Takes a request as the renderer will."""
        name = request.name
        if name in BLOCKS:
            self.saved.append(Saved(name, self.maps, self.world, self.attributes, self.options))
            if name == "WorldBegin":
                self.maps, self.world = (IDENTITY, IDENTITY), self.maps
        elif name in ENDS:
            self.back(name)
        elif name == "Identity":
            self.change(IDENTITY, whole=True)
        elif name in MOVES:
            step = matrices.of_request(name, request.numbers())
            if step is not None:
                self.change(step, whole=name == "Transform")
        elif name in ("MotionBegin", "MotionEnd"):
            self.place = 0 if name == "MotionBegin" else None
            return
        else:
            self.attribute(request)
        if self.place is not None:
            self.place = 1

    def back(self, name: str) -> None:
        if self.saved:
            it = self.saved.pop()
            self.maps, self.world = it.maps, it.world
            if it.name != "TransformBegin":
                self.attributes = it.attributes
            if it.name == "FrameBegin":
                self.options = it.options
        if name == "WorldEnd":
            self.set(lights=frozenset())

    def attribute(self, request: Request) -> None:
        name, n = request.name, request.numbers()
        if name == "Basis":
            self.basis(request)
        elif name == "Sides" and n:
            self.set(sides=int(n[0]))
        elif name == "Orientation":
            self.set(inside=request.word(0) == "inside")
        elif name == "ReverseOrientation":
            self.set(inside=not self.attributes.inside)
        elif name == "Color" and len(n) == 3:
            self.set(color=tuple(n))
        elif name in ("CoordinateSystem", "ScopedCoordinateSystem"):
            self.space(request.word(0) or "")
        else:
            self.camera(name, n, request)

    def camera(self, name: str, n: list[float], request: Request) -> None:
        if name == "Format" and len(n) >= 2 and n[0] > 0 and n[1] > 0:
            self.option(width=n[0], height=n[1])
        elif name == "FrameAspectRatio" and n and n[0] > 0:
            self.option(aspect=n[0])
        elif name == "ScreenWindow" and len(n) == 4:
            self.option(screen=tuple(n))
        elif name == "Clipping" and len(n) == 2:
            self.option(far=n[1])
        elif name == "RelativeDetail" and n:
            self.option(detail=n[0])
        elif name == "Projection":
            fov = [request.array(at + 1) for at, it in enumerate(request.args[:-1]) if isinstance(it, str) and it.split()[-1:] == ["fov"]]
            value = float(fov[-1][0]) if fov and len(fov[-1]) else 90.0
            self.option(perspective=request.word(0) == "perspective", fov=min(max(value, 0.004), 179.9))

    def basis(self, request: Request) -> None:
        sides = []
        for at in (0, 2):
            word, matrix, step = request.word(at), request.array(at), request.array(at + 1)
            found = BASES.get((word or "").replace("bspline", "b-spline")) if len(matrix) != 16 else matrix.reshape(4, 4)
            if found is None or len(step) != 1 or step[0] < 1:
                return
            sides.append((found, int(step[0])))
        (u, u_step), (v, v_step) = sides
        self.set(basis=Basis(u, u_step, v, v_step))


def spaces_of(row: Iterable[Request]) -> dict[str, Floats]:
    """All coordinate systems that a scene names, by their maps to world space; of one that is named again the last."""
    state, before, found = State(), dict[str, Floats](), dict[str, Floats]()
    for it in row:
        if it.name == "WorldBegin":
            back = matrices.inverse(state.maps[0])
            found.update({**screens.of_camera(state.options, state.maps[0]), **{name: m @ back for name, m in before.items()}})
        state.follow(it)
        if it.name in ("CoordinateSystem", "ScopedCoordinateSystem") and len(found) < MOST_SPACES:
            if state.world:
                found[it.word(0) or ""] = state.maps[0]
            else:
                before[it.word(0) or ""] = state.maps[0]
    return found
