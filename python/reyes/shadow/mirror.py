"""`mirror`: a flat floor or wall, or a bent thing, that mirrors the scene, by pictures of the scene."""
from __future__ import annotations

import argparse
from collections.abc import Iterator
from pathlib import Path

import numpy as np

from reyes import files, places, progress, rendering, workers
from reyes.bring import matrices
from reyes.bring.text import Floats, number, requests, written
from reyes.drawing import Drawing, Settings
from reyes.errors import USAGE, Trouble
from reyes.scene import Changes
from reyes.shadow import ball, scenes, surfaces
from reyes.shadow.command import begun, draw, put, text_of_shader, with_more

EXAMPLE = """example:
  python3 -m reyes mirror examples/tea.rib --floor checker -o tea.png

What wears the surface SURFACE has to be flat. The world is turned over at its plane and drawn without it, and the surface reads that picture
at its own place on the screen: a reflection without rays, of one bounce. What stands on the other side of the plane would be mirrored too,
so there should be nothing. With --ball it may be bent: six views from its middle make a map that it reads by the direction it mirrors; it doesn't
mirror itself, and what is near it is shown as from its middle. The picture, the shader and the changed scene stay in OUT.mirror. Of a scene with shadows, `shadow` first:
  python3 -m reyes shadow examples/tea.rib -o tea.png
  python3 -m reyes mirror tea.png.shadows/scene.rib --floor lit_checker -o tea.png"""
NAME = "mirror.ppm"
MOST = 16_777_216 // 6  # pixels of a texture of sixteen bits
# What the mirrored picture has otherwise: it is read as numbers, and whole.
GONE = ("Quantize", "Exposure", "CropWindow")


def add_arguments(parser: argparse.ArgumentParser) -> None:
    parser.description = "Draws a scene with a flat floor or wall, or a bent thing, that mirrors it."
    parser.epilog = EXAMPLE
    parser.add_argument("scene", metavar="SCENE", help="the scene's file")
    which = parser.add_mutually_exclusive_group(required=True)
    which.add_argument("--floor", metavar="SURFACE", help="the surface of what is flat and mirrors")
    which.add_argument("--ball", metavar="SURFACE", help="the surface of what is bent and mirrors, as a ball or a pot of metal")
    parser.add_argument("--strength", type=float, default=0.4, metavar="S", help="how much it mirrors where it is looked at flat, 0 to 1 (0.4); a third of it from straight above")
    parser.add_argument("-o", "--output", metavar="OUT", required=True, help="where the picture goes: .png, .ppm, .tif, .exr ..")
    parser.add_argument("-q", "--quiet", action="store_true", help="no bar, and no line but for faults")
    workers.add_arguments(parser)
    rendering.add_changes(parser)


def main(arguments: argparse.Namespace) -> int:
    with begun(arguments, "mirror", "mirror") as it:
        place, room, settings = it.place, it.room, it.settings
        scene = scenes.read(list(requests(it.data, str(place))), lambda surface: True)
        surface = arguments.floor or arguments.ball
        own = text_of_shader(surface, files.folders(place, settings.search)) or surfaces.stock(surface)
        if own is None:
            raise Trouble(f"{surface}.sl: no such surface that can be given a mirror", USAGE)
        put(room, {f"mirror_{surface}.sl": surfaces.mirroring(own, surface, "mirror" if arguments.floor else "ball")})
        if arguments.floor:
            _draw_mirrored(turned_over(scene, surface), room, place, settings)
            text = b"".join(_changed(scene, surface, arguments.strength))
        else:
            axes = ball.draw_map(scene, surface, room, place, settings)[1]
            text = b"".join(ball.changed(scene, surface, axes, arguments.strength))
        draw(it, text, arguments)
    return 0


def turned_over(scene: scenes.Scene, floor: str) -> bytes:
    """The scene as the mirror shows it. Raises Trouble where nothing wears the surface, or where what does isn't flat."""
    middle, normal = plane([it.points for it in scene.shapes if it.surface == floor], floor)
    turn = np.eye(4)
    turn[:3, :3] -= 2 * np.outer(normal, normal)
    turn[3, :3] = 2 * float(middle @ normal) * normal
    left_out = {it.place for it in scene.shapes if it.surface == floor}
    parts = [b'Quantize "rgb" 65535 0 65535 0\n']
    for place, it in enumerate(scene.row):
        if place == scene.begin:
            parts.append(("ConcatTransform [" + " ".join(number(float(x)) for x in turn.ravel()) + "]\n").encode())
        if it.name not in GONE and place not in left_out:
            parts.append(written(it))
    return b"".join(parts)


def plane(shapes: list[Floats], floor: str) -> tuple[Floats, Floats]:
    """A point of the plane in which points lie, and its normal of length 1."""
    points = np.concatenate([np.zeros((0, 3)), *shapes])
    if len(points) < 3:
        raise Trouble(f"nothing in the scene wears the surface {floor!r}", USAGE)
    middle = points.mean(axis=0)
    normal = np.linalg.svd(points - middle, full_matrices=False)[2][-1]
    if np.abs((points - middle) @ normal).max() > 1e-3 * float(np.ptp(points, axis=0).max()):
        raise Trouble(f"what wears the surface {floor!r} isn't flat, and only a plane mirrors here", USAGE)
    return middle, matrices.unit(normal)


def _draw_mirrored(text: bytes, room: Path, place: Path, settings: Settings) -> None:
    """Draws the mirrored scene into the folder, as a texture."""
    changes = Changes(settings.changes.size, settings.changes.factor, settings.changes.samples, settings.changes.rate)
    drawing = Drawing(text, NAME, place, Settings(changes, None, settings.jobs, settings.words, settings.search, settings.executor, str(room)))
    width, height = drawing.frames[0].options.size
    if width * height > MOST or max(width, height) > 2048:
        raise Trouble(f"a picture of {width} by {height} is too large for a mirror: 2,048 each way and {MOST:,} pixels at most", USAGE)
    whole = drawing.picture(drawing.frames[0], None)
    for it in drawing.draw([whole], progress.Silent()):
        places.replace(room / NAME, it.kept.whole())


def _changed(scene: scenes.Scene, floor: str, strength: float) -> Iterator[bytes]:
    """The scene whose floor reads the picture."""
    left, right, bottom, top = (it * scene.options.slope() for it in scene.options.window())
    given = {"strength": strength, "perspective": float(scene.options.perspective), "left": left, "width": right - left, "top": top, "height": top - bottom}
    more = f' "string mirror_picture" ["{NAME}"] ' + " ".join(f'"float mirror_{name}" [{number(value)}]' for name, value in given.items())
    for it in scene.row:
        if it.name == "Surface" and it.word(0) == floor:
            yield with_more(it.made(it.name, f"mirror_{floor}", *it.args[1:]), more.encode()) + it.tail
        else:
            yield written(it)
