"""The scenes that lights see, and the maps drawn of them, which are kept while what draws them stays the same."""
from __future__ import annotations

import hashlib
from collections.abc import Iterator, Mapping
from dataclasses import dataclass
from pathlib import Path

import numpy as np

from reyes import places
from reyes.bring.text import Request, number, written
from reyes.drawing import Drawing, Settings
from reyes.errors import Trouble
from reyes.progress import Silent
from reyes.shadow.scenes import POINTS, Scene
from reyes.shadow.views import View

# What a map needs none of: it shows depths alone, and both sides of things.
WITHOUT = ("LightSource", "Illuminate", "Atmosphere", "ShadingRate", "ShadingInterpolation", "Sides")


@dataclass(frozen=True)
class Map:
    """A light's map: its name as a texture, and the text of the scene that draws it."""

    name: str
    text: bytes


def text_of(scene: Scene, view: View, name: str, casters: Mapping[str, str]) -> bytes:
    """The scene as a light sees it, each surface replaced by its caster. Depth is exact at the samples of smooth grids; where a plane's
    cells had one depth each, it would have steps.
    """
    head = [
        f'Display "{name}" "file" "rgb"', 'Quantize "rgb" 65535 0 65535 0', f"Format {view.sides[0]} {view.sides[1]} 1", "PixelSamples 2 2",
        'PixelFilter "box" 1 1', "ShadingRate 4", 'ShadingInterpolation "smooth"',
        'Projection "orthographic"' if view.parallel else 'Projection "perspective" "fov" [90]',
        "ScreenWindow " + " ".join(map(number, view.window)), f"Clipping {number(view.near)} {number(view.far)}", _transformation(view),
    ]
    parts = ["\n".join(head).encode(), *_declared(scene), b'WorldBegin Surface "cast"\n', *_world(scene, casters), b"\nWorldEnd\n"]
    return b"\n".join(parts)


def _transformation(view: View) -> str:
    """The map from world space to the light's."""
    axes = np.stack([view.right, view.up, view.ahead], axis=1) * view.unit
    matrix = np.eye(4)
    matrix[:3, :3], matrix[3, :3] = axes, -view.source @ axes
    return "ConcatTransform [" + " ".join(number(float(it)) for it in matrix.ravel()) + "]"


def _declared(scene: Scene) -> Iterator[bytes]:
    return (written(it) for it in scene.row[: scene.begin] if it.name == "Declare")


def _world(scene: Scene, casters: Mapping[str, str]) -> Iterator[bytes]:
    """What stands in the world, less what throws no shadow."""
    silent = {it.place for it in scene.shapes if not it.casts}
    for place in range(scene.begin + 1, scene.end):
        it = scene.row[place]
        if it.name in WITHOUT or it.name in POINTS and place in silent:
            continue
        if it.name != "Surface":
            yield written(it)
            continue
        name = casters.get(it.word(0) or "", "cast")
        yield f'Surface "{name}"\n'.encode() if name == "cast" else written(_renamed(it, name))


def _renamed(it: Request, name: str) -> Request:
    return it.made(it.name, name, *it.args[1:])


def draw(wanted: Map, folder: Path, place: Path | None, settings: Settings, told: Silent) -> bool:
    """Draws a map into the folder, where the shaders that draw it stand; gives False where it stands there already, of the same text,
    shaders, textures and program. Raises Trouble.
    """
    drawing = Drawing(wanted.text, wanted.name, place, settings)
    picture_of = drawing.picture(drawing.frames[0], None)
    key = hashlib.sha256(picture_of.kept.key.encode() + wanted.text).hexdigest()
    target, noted = folder / wanted.name, folder / f"{wanted.name}.key"
    if target.is_file() and noted.is_file() and noted.read_text("ascii", "replace") == f"{key} {_sum(target)}":
        drawing.accepted()
        return False
    for it in drawing.draw([picture_of], told):
        places.replace(target, it.kept.whole())
        places.replace(noted, f"{key} {_sum(target)}".encode())
    if not target.is_file():
        raise Trouble(f"{target}: not drawn")
    return True


def _sum(path: Path) -> str:
    return hashlib.sha256(path.read_bytes()).hexdigest()
