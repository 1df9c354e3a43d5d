"""What the tests of shaders share: bringing a text, drawing it small, and the values that a surface has at its points."""
from __future__ import annotations

import shutil
from collections.abc import Mapping, Sequence
from pathlib import Path
from typing import Any

import numpy as np
import pytest
from numpy.typing import NDArray

from reyes import picture, program as renderer
from reyes.bring.changes import Changes
from reyes.bring.shaders import Lowered, lower
from reyes.bring.shaders.preprocess import first_line

SIDE = 64
HEAD = """Display "picture.ppm" "file" "rgb"
Format {side} {side} 1
PixelSamples 1 1
PixelFilter "box" 1 1
Quantize "rgb" {most} 0 {most} 0
"""
# What the scenes of pictures have: a ball and a patch that is turned, under two lights.
BODY = """Projection "perspective" "fov" [40]
Translate 0 0 5
CoordinateSystem "outside"
WorldBegin
LightSource "ambientlight" 1 "intensity" [0.2]
{light}
AttributeBegin
Attribute "displacementbound" "sphere" [0.6]
{shader}
Color [0.8 0.6 0.4]
AttributeBegin
Translate -0.75 0.4 0
Rotate -60 1 0 0
Sphere 0.8 -0.8 0.8 360
AttributeEnd
Translate 0.75 -0.3 0
Rotate 25 0 1 0
Patch "bilinear" "P" [-0.8 -1 0  0.8 -1 0  -0.8 1 0  0.8 1 0]
AttributeEnd
WorldEnd
"""
WORDS = {
    "surface": 'Surface "it"',
    "displacement": 'Surface "matte"\nDisplacement "it"',
    "volume": 'Surface "matte"\nAtmosphere "it"',
    "light": 'Surface "matte"',
}
SUN = 'LightSource "distantlight" 2 "from" [1 2 -3] "to" [0 0 0]'
Places = Mapping[str, NDArray[Any]]


def brought(text: str, folders: Sequence[Path] = (), spaces: Places | None = None) -> tuple[Lowered, list[str]]:
    """A text in the words of the profile, and the lines of what was changed. Tests of the preprocessor are passed over without `cpp`."""
    if first_line(text.encode("latin-1")) and shutil.which("cpp") is None:
        pytest.skip("cpp isn't there")
    changes = Changes("=~!")
    found = lower(text.encode("latin-1"), "it.sl", folders, spaces or {}, changes)
    return found, changes.lines()


def drawn(program: Path, folder: Path, text: bytes | str, kind: str = "surface", words: str = "") -> NDArray[Any]:
    """The picture of a shader on a ball and a patch, of shape (64, 64, 3), as whole numbers from 0 to 255."""
    light = 'LightSource "it" 2 ' + words if kind == "light" else SUN
    shader = WORDS[kind] + (" " + words if kind != "light" else "")
    return _rendered(program, folder, text, HEAD.format(side=SIDE, most=255) + BODY.format(light=light, shader=shader))


def values(program: Path, folder: Path, text: bytes | str) -> NDArray[Any]:
    """The colours of a surface that fills the picture, at 1,024 points, each exactly what the shader left; of shape (1024, 3)."""
    scene = HEAD.format(side=32, most=65535) + 'WorldBegin\nSurface "it"\nPatch "bilinear" "P" [-1 -1 1 1 -1 1 -1 1 1 1 1 1]\nWorldEnd\n'
    return _rendered(program, folder, text, scene).reshape(-1, 3) / 65535


def _rendered(program: Path, folder: Path, text: bytes | str, scene: str) -> NDArray[Any]:
    """The picture of a scene and its shader."""
    data = text if isinstance(text, bytes) else text.encode("latin-1")
    (folder / "it.sl").write_bytes(data)
    (folder / "scene.rib").write_text(scene)
    answer = renderer.run(["render", "scene.rib"], folder, program)
    assert answer.status == 0, f"{answer.notes}\n{data.decode('latin-1')}"
    return picture.read(folder / "picture.ppm").astype(np.int64)


def difference(one: NDArray[Any], other: NDArray[Any]) -> int:
    """The greatest difference between two pictures, in levels."""
    return int(np.max(np.abs(one - other)))


def accepted(program: Path, folder: Path, text: bytes, kind: str) -> tuple[str, ...]:
    """What the renderer notes about a scene with a shader: nothing where it takes it."""
    light = 'LightSource "it" 2' if kind == "light" else SUN
    (folder / "it.sl").write_bytes(text)
    (folder / "scene.rib").write_text(HEAD.format(side=8, most=255) + BODY.format(light=light, shader=WORDS[kind]))
    answer = renderer.run(["check", "scene.rib"], folder, program)
    return answer.notes
