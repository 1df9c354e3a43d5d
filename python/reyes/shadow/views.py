"""The views that maps are drawn from: for each light a frame in world space, a window and two depths, fitted to what is seen and what throws.

All lengths of a view are in camera space, where shaders compute. Its axes are given to them in world space, so that one map serves shaders
of any space and stays right when the camera moves.
"""
from __future__ import annotations

import math
from collections.abc import Mapping
from dataclasses import dataclass

import numpy as np

from reyes import shader
from reyes.bring import matrices
from reyes.bring.text import Floats, number
from reyes.shadow.scenes import Lamp, Scene

# What the stock's lights are, and how wide their cone is where nothing else is said.
STOCK = {"ambientlight": "", "distantlight": "parallel", "pointlight": "point", "spotlight": "spot"}
CONE = math.radians(30)
WIDEST = math.tan(math.radians(70))  # of the view of a point light, which has one map
# A level of a texture has as many texels as its samples give, rounded up, and a look-up stretches them over 0 to 1. Sides that aren't whole
# numbers of a coarse level's texels would move what is read there.
STEP = 128


@dataclass(frozen=True)
class View:
    """How a light sees: whether its rays are parallel, the place it sees from and three axes of length 1 in world space, the window (left,
    right, bottom, top) at a depth of 1 or, where parallel, everywhere, near and far, the sides of the map in samples, how wide one of these
    is on the window, and how wide about where shadows fall.
    """

    parallel: bool
    source: Floats
    right: Floats
    up: Floats
    ahead: Floats
    window: tuple[float, float, float, float]
    near: float
    far: float
    sides: tuple[int, int]
    texel: float
    step: float
    unit: float


def kind_of(lamp: Lamp, text: bytes | None) -> str:
    """Whether a light is "parallel", a "spot", a "point", or "" for one that throws no shadows."""
    if text is None:
        return STOCK.get(lamp.shader, "")
    words = [it.text for it in shader.tokens(text)]
    if "solar" in words:
        return "parallel"
    found = shader.declared(text)
    aims = found is not None and any(it.name == "to" for it in found.parameters)
    return ("spot" if aims else "point") if "illuminate" in words else ""


def fitted(lamp: Lamp, kind: str, scene: Scene, seen: Floats, side: int) -> View | None:
    """The view of a light, whose map has `side` samples along its longer side; None where it falls on nothing that is seen, or where
    nothing throws a shadow there.
    """
    casting = np.concatenate([np.zeros((0, 3)), *(it.points for it in scene.shapes if it.casts)])
    if not len(casting) or not len(seen):
        return None
    source, right, up, ahead = _frame(lamp, kind, casting)
    parallel, unit = kind == "parallel", scene.unit
    axes = np.stack([right, up, ahead], axis=1) * unit
    spots, shapes = (_projected((it - source) @ axes, parallel) for it in (seen, casting))
    widest = math.inf if parallel else WIDEST
    if kind == "spot":
        widest = math.tan(min(_angle(lamp.values), 1.4)) * 1.01
        spots = spots[np.hypot(spots[:, 0], spots[:, 1]) <= widest * 1.1]
    if not len(spots) or not len(shapes):
        return None
    window = _window(spots, shapes, widest)
    if window is None:
        return None
    left, right_end, bottom, top = window
    inside = shapes[(shapes[:, 0] >= left) & (shapes[:, 0] <= right_end) & (shapes[:, 1] >= bottom) & (shapes[:, 1] <= top)]
    if not len(inside):
        return None
    near, far = float(inside[:, 2].min()), float(max(inside[:, 2].max(), spots[:, 2].max()))
    slack = 0.03 * (far - near) + 0.05
    near, far = near - slack, far + slack
    if parallel:
        source, near, far = ahead * ((near - 1) / unit), 1.0, far - near + 1
    near = max(near, 0.05)
    texel = max(right_end - left, top - bottom) / side
    sides = tuple(STEP * math.ceil(it / texel / STEP - 1e-6) for it in (right_end - left, top - bottom))
    more = [(sides[0] * texel - (right_end - left)) / 2, (sides[1] * texel - (top - bottom)) / 2]
    whole = (left - more[0], right_end + more[0], bottom - more[1], top + more[1])
    return View(parallel, source, right, up, ahead, whole, near, far, (sides[0], sides[1]), texel, texel * (1 if parallel else float(spots[:, 2].mean())), unit)


def _frame(lamp: Lamp, kind: str, casting: Floats) -> tuple[Floats, Floats, Floats, Floats]:
    """Where a light is, and its axes: right, up and ahead, turned so that right lies along an axis of the world as nearly as may be."""
    source = matrices.points(lamp.to_world, lamp.values.get("from", np.zeros(3)))
    target = matrices.points(lamp.to_world, lamp.values.get("to", np.array([0.0, 0.0, 1.0])))
    if kind == "point":
        target = casting.mean(axis=0)
    ahead = matrices.unit(target - source)
    across = np.eye(3)[int(np.argmin(np.abs(ahead)))]
    right = matrices.unit(np.cross(across, ahead))
    return np.zeros(3) if kind == "parallel" else source, right, np.cross(ahead, right), ahead


def _projected(points: Floats, parallel: bool) -> Floats:
    """Points of a light's frame on its window, with their depths."""
    if parallel:
        return points
    before = points[points[:, 2] > 1e-3]
    found: Floats = np.column_stack([before[:, :2] / before[:, 2:], before[:, 2]])
    return found


def _angle(values: Mapping[str, Floats]) -> float:
    """The angle of a spot's cone."""
    found = values.get("coneangle", values.get("angle"))
    return float(found[0]) if found is not None and len(found) else CONE


def _window(spots: Floats, shapes: Floats, widest: float) -> tuple[float, float, float, float] | None:
    """The window that covers what is seen, as far as anything throws shadows there."""
    ends = []
    room = 0.03 * float(np.ptp(shapes[:, :2], axis=0).max())
    for axis in (0, 1):
        low = max(float(spots[:, axis].min()), float(shapes[:, axis].min()) - room)
        high = min(float(spots[:, axis].max()), float(shapes[:, axis].max()) + room)
        if low >= high:
            return None
        ends.append((low, high))
    room = 0.03 * max(high - low for low, high in ends)
    (left, right), (bottom, top) = ((max(low - room, -widest), min(high + room, widest)) for low, high in ends)
    return left, right, bottom, top


def parameters(view: View, place: int, name: str, softness: float, angle: float, bias: float | None, thin: bool) -> str:
    """What a lit surface's request gives for its light number `place`: the file of the map and the view. `softness` is the radius of a
    light in world space, `angle` that of a distant one in degrees, `bias` how far under the map a point may lie and be lit.
    """
    left, right, bottom, top = view.window
    soft = math.tan(math.radians(angle)) if view.parallel else softness * view.unit
    given: dict[str, str] = {"string map": f'"{name}"', "float parallel": number(float(view.parallel)), "color from": _row(view.source)}
    # the axes are as long in camera space as one unit there
    given |= {f"color {axis}": _row(vector / view.unit) for axis, vector in (("right", view.right), ("up", view.up), ("ahead", view.ahead))}
    given |= {"float left": number(left), "float width": number(right - left), "float top": number(top), "float height": number(top - bottom)}
    given |= {"float near": number(view.near), "float far": number(view.far), "float texel": number(view.texel), "float soft": number(soft)}
    given |= {"float bias": number(1.5 * view.step if bias is None else bias), "float thin": number(float(thin))}
    parts = (token.split() for token in given)
    return " ".join(f'"{kind} shadow_{name}{place}" [{value.strip("[]")}]' for (kind, name), value in zip(parts, given.values()))


def _row(vector: Floats) -> str:
    return " ".join(number(float(it)) for it in vector)
