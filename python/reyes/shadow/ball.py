"""Sphere maps for bent mirrors: six views from the middle of a thing, laid on one picture that a surface reads by the direction it mirrors."""
from __future__ import annotations

from collections.abc import Iterator
from pathlib import Path

import numpy as np

from reyes import picture, places, progress
from reyes.bring import matrices
from reyes.bring.text import Floats, number, written
from reyes.drawing import Drawing, Settings
from reyes.errors import USAGE, Trouble
from reyes.shadow import scenes
from reyes.shadow.command import with_more

NAME = "ball.ppm"
SIDE = 512  # of the map, and of each view, in samples
# What the camera is made of, and what a view has otherwise than the picture.
CAMERA = ("Format", "FrameAspectRatio", "ScreenWindow", "CropWindow", "Projection", "Clipping", "Translate", "Rotate", "Scale", "ConcatTransform",
          "Transform", "Identity", "Quantize", "Exposure", "Display", "Shutter")
# The axes of the six views in a frame of right, up and ahead: right, up and ahead of each.
FACES = np.array([
    [[1, 0, 0], [0, 1, 0], [0, 0, 1]], [[-1, 0, 0], [0, 1, 0], [0, 0, -1]], [[0, 0, -1], [0, 1, 0], [1, 0, 0]],
    [[0, 0, 1], [0, 1, 0], [-1, 0, 0]], [[1, 0, 0], [0, 0, -1], [0, 1, 0]], [[1, 0, 0], [0, 0, 1], [0, -1, 0]],
], dtype=float)


def frame(scene: scenes.Scene, name: str) -> tuple[Floats, Floats]:
    """The middle of what wears a surface, and the axes right, up and ahead, rows of shape (3, 3) in world space, as the camera looks at it.
    Raises Trouble where nothing wears it.
    """
    points = np.concatenate([np.zeros((0, 3)), *(it.points for it in scene.shapes if it.surface == name)])
    if not len(points):
        raise Trouble(f"nothing in the scene wears the surface {name!r}", USAGE)
    middle = (points.min(axis=0) + points.max(axis=0)) / 2
    back = matrices.inverse(scene.to_camera)
    eye = matrices.points(back, np.zeros((1, 3)))[0] if scene.options.perspective else middle - back[2, :3]
    ahead = matrices.unit(middle - eye)
    right = matrices.unit(np.cross(matrices.unit(back[1, :3]), ahead))
    return middle, np.stack([right, np.cross(ahead, right), ahead])


def draw_map(scene: scenes.Scene, name: str, room: Path, place: Path, settings: Settings) -> tuple[Floats, Floats]:
    """Draws the sphere map of what wears a surface into the folder, and gives the frame by which it is read."""
    middle, axes = frame(scene, name)
    views = [_drawn(_view(scene, name, middle, face @ axes), room, place, settings) for face in FACES]
    places.replace(room / NAME, picture.to_ppm(laid_out(views)))
    return middle, axes


def _view(scene: scenes.Scene, name: str, middle: Floats, axes: Floats) -> bytes:
    """The scene as one of the six views sees it, without what mirrors."""
    turn = np.eye(4)
    turn[:3, :3], turn[3, :3] = axes.T, -middle @ axes.T
    head = f'Display "{NAME}" "file" "rgb" Format {SIDE} {SIDE} 1 Quantize "rgb" 65535 0 65535 0 Projection "perspective" "fov" [90] Clipping 0.01 32000\n'
    parts = [head.encode()]
    for place, it in enumerate(scene.row):
        if place == scene.begin:
            parts.append(("ConcatTransform [" + " ".join(number(float(x)) for x in turn.ravel()) + "]\n").encode())
        is_camera = place < scene.begin and it.name in CAMERA
        is_mirror = any(shape.place == place and shape.surface == name for shape in scene.shapes) if it.name in scenes.POINTS else False
        if not is_camera and not is_mirror:
            parts.append(written(it))
    return b"".join(parts)


def _drawn(text: bytes, room: Path, place: Path, settings: Settings) -> picture.Picture:
    drawing = Drawing(text, NAME, place, Settings(jobs=settings.jobs, executor=settings.executor, search=settings.search, given=str(room)))
    whole = drawing.picture(drawing.frames[0], None)
    for it in drawing.draw([whole], progress.Silent()):
        return picture.from_ppm(it.kept.whole(), NAME)
    raise Trouble(f"{NAME}: not drawn")


def laid_out(views: list[picture.Picture]) -> picture.Picture:
    """The sphere map of six views, uint16 of shape (SIDE, SIDE, 3): at each place the direction that a ball mirrors there, towards the eye in
    the middle; outside of the ball what its rim shows.
    """
    x, y = np.meshgrid((np.arange(SIDE) + 0.5) / SIDE * 2 - 1, 1 - (np.arange(SIDE) + 0.5) / SIDE * 2)
    far = np.maximum(np.hypot(x, y), 1.0) * 1.0001
    x, y = x / far, y / far
    z = np.sqrt(np.maximum(1 - x * x - y * y, 0))
    seen = np.stack([2 * z * x, 2 * z * y, 1 - 2 * z * z], axis=-1)  # in right, up and ahead
    found = np.zeros((SIDE, SIDE, 3), np.uint16)
    inside = np.stack([seen @ face[2] for face in FACES]).argmax(axis=0)
    for at, (face, view) in enumerate(zip(FACES, views)):
        here = inside == at
        right, up, ahead = (seen[here] @ axis for axis in face)
        columns = np.clip(((right / ahead + 1) / 2 * SIDE).astype(int), 0, SIDE - 1)
        rows = np.clip(((1 - up / ahead) / 2 * SIDE).astype(int), 0, SIDE - 1)
        found[here] = view[rows, columns]
    return found


def changed(scene: scenes.Scene, name: str, axes: Floats, strength: float) -> Iterator[bytes]:
    """The scene whose bent mirror reads the map."""
    more = f' "string ball_picture" ["{NAME}"] "float ball_strength" [{number(strength)}]'
    for axis, vector in zip(("right", "up", "ahead"), axes):
        more += f' "color ball_{axis}" [{" ".join(number(float(it)) for it in vector)}]'
    for it in scene.row:
        if it.name == "Surface" and it.word(0) == name:
            yield with_more(it.made(it.name, f"mirror_{name}", *it.args[1:]), more.encode()) + it.tail
        else:
            yield written(it)
