"""What the tests of scenes that are brought in share: bringing a text, and drawing it to an array."""
from __future__ import annotations

from dataclasses import dataclass
from pathlib import Path

import numpy as np
from numpy.typing import NDArray

from reyes import picture
from reyes import program as renderer
from reyes.bring import command
from reyes.bring.changes import Changes

HEAD = 'Format 64 48 1\nPixelSamples 2 2\nPixelFilter "box" 1 1\nDisplay "out.ppm" "file" "rgb"\nProjection "perspective" "fov" [40]\n'
LIGHTS = 'LightSource "distantlight" 1 "from" [1 2 -3] "to" [0 0 0]\nLightSource "ambientlight" 2 "intensity" [.2]\nSurface "plastic"\nColor [.9 .6 .3]\nShadingRate .25\nShadingInterpolation "smooth"\n'
AWAY = "Translate 0 0 4\nRotate -50 1 0 0\nRotate 20 0 0 1\n"


@dataclass(frozen=True)
class Answer:
    """A scene that was brought: its text, its changes and the folder that it was written into."""

    text: str
    changes: Changes
    folder: Path

    def kinds(self) -> str:
        return "".join(sorted({it.kind for it in self.changes}))


def world(text: str, before: str = "", lights: str = LIGHTS) -> str:
    """A scene of a few requests under two lights."""
    return f"{HEAD}{before}\nWorldBegin\n{lights}{AWAY}{text}\nWorldEnd\n"


def bring(folder: Path, text: str | bytes, may: str = "=~!") -> Answer:
    """Brings a text in, as a file of a folder, and writes what comes of it into the folder `out` there."""
    folder.mkdir(parents=True, exist_ok=True)
    scene = folder / "scene_in.rib"
    scene.write_bytes(text.encode("latin-1") if isinstance(text, str) else text)
    brought = command.bring(scene, may)
    out = folder / "out"
    out.mkdir(exist_ok=True)
    for name, data in {"scene.rib": brought.text, **brought.files}.items():
        (out / name).write_bytes(data)
    return Answer(brought.text.decode("latin-1"), brought.changes, out)


def drawn(folder: Path, text: str, name: str = "out.ppm") -> NDArray[np.int64]:
    """The picture of a text in the profile's words, in levels of shape (height, width, 3)."""
    folder.mkdir(parents=True, exist_ok=True)
    (folder / "drawn.rib").write_text(text, encoding="latin-1")
    answer = renderer.run(["render", "drawn.rib"], folder)
    assert answer.status == 0, answer.notes
    return picture.read(folder / name).astype(np.int64)


def brought_and_drawn(folder: Path, text: str, name: str = "out.ppm") -> tuple[NDArray[np.int64], Answer]:
    answer = bring(folder, text)
    return drawn(answer.folder, answer.text, name), answer


def apart(a: NDArray[np.int64], b: NDArray[np.int64]) -> tuple[int, float]:
    """How far two pictures are apart: the greatest difference in levels away from edges, that is in all but a hundredth of the pixels, and
    the mean of all."""
    far = np.abs(a - b).max(axis=2).ravel()
    return int(np.sort(far)[-1 - len(far) // 100]), float(far.mean())
