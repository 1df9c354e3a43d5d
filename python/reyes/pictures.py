"""Pictures from Python: `reyes.render(scene)` draws a scene, and a notebook shows what comes of it."""
from __future__ import annotations

import tempfile
from collections.abc import Callable, Iterator, Mapping
from concurrent.futures import Executor
from dataclasses import dataclass, field
from functools import cached_property
from pathlib import Path
from typing import Union

import numpy as np

from reyes import picture, places, view
from reyes.drawing import Drawing, Settings
from reyes.errors import Trouble, file_trouble
from reyes.progress import Silent
from reyes.scene import Changes

Source = Union[str, bytes, Path]
Shaders = Mapping[str, Union[str, Path]]
Textures = Mapping[str, Union[picture.Picture, bytes, Path]]


@dataclass(frozen=True)
class Rendered:
    """A picture that was drawn: the name that the scene gives it, the number of its frame, and the bytes of its PPM, which are those of
    `reyes render`.
    """

    name: str
    number: int
    ppm: bytes = field(repr=False)

    @cached_property
    def array(self) -> picture.Picture:
        """The pixels: shape (height, width, 3), uint8, or uint16 where the scene asks for sixteen bits."""
        return picture.from_ppm(self.ppm, self.name)

    def save(self, path: str | Path | None = None) -> None:
        """Writes the picture in the form of the path's ending (.ppm, .png, .tif, .exr ..), by default under its name. Raises Trouble."""
        target = self.name if path is None else path
        if Path(target).suffix.lower() in places.ENDINGS[1:]:
            picture.write(target, self.array)
        else:
            places.replace(target, self.ppm)

    def show(self) -> None:
        """Opens the picture in the desktop's viewer."""
        view.show(self.array, Path(self.name).stem)

    def _repr_png_(self) -> bytes:
        """What a notebook shows."""
        return picture.to_png(self.array)


def render(
    scene: Source,
    shaders: Shaders | None = None,
    textures: Textures | None = None,
    jobs: int = 0,
    *,
    frame: int | None = None,
    changes: Changes = Changes(),
    executor: Executor | None = None,
) -> Rendered:
    """Draws a scene and gives its picture: that of its only frame, or of the frame with this number.

    `scene` is what `ri.End` gives, a RIB text, or a file (a Path, or a str that ends with .rib). `shaders` has texts or files (Path) of
    shaders by their names, as `{"wood": "surface wood() {..}"}`; `textures` has pictures by the names under which shaders ask for them:
    arrays of uint8 or uint16 of shape (height, width, 3), the bytes of PPM files, or files. `jobs` is how many processes draw at a
    time, by default the number of processors. Raises Trouble for a fault of the scene or its shaders, and where it has several frames
    and none is chosen.
    """
    wanted = None if frame is None else (lambda number: number == frame)
    found = list(film(scene, shaders, textures, jobs, frames=wanted, changes=changes, executor=executor))
    if not found:
        raise Trouble("the scene has no frame: it needs a WorldBegin and a WorldEnd")
    if len(found) > 1:
        raise Trouble(f"the scene has {len(found)} frames: `frame` chooses one, and `reyes.film` draws them all")
    return found[0]


def film(
    scene: Source,
    shaders: Shaders | None = None,
    textures: Textures | None = None,
    jobs: int = 0,
    *,
    frames: Callable[[int], bool] | None = None,
    changes: Changes = Changes(),
    executor: Executor | None = None,
) -> Iterator[Rendered]:
    """Draws the frames of a scene whose numbers `frames` is true of (all, by default), and gives their pictures in their order; else as
    `render`.
    """
    data, name, place = _source(scene)
    with tempfile.TemporaryDirectory(prefix="reyes-given-") as room:
        try:
            _put(Path(room), shaders or {}, textures or {})
            drawing = Drawing(data, name, place, Settings(changes, frames, jobs, None, (), executor, room))
            pictures = [drawing.picture(frame, None) for frame in drawing.frames]
            whole: dict[int, Rendered] = {}
            for it in drawing.draw(pictures, Silent()):
                whole[it.frame.place] = Rendered(it.name, it.frame.number, it.kept.whole())
                it.kept.forget()
                while pictures and pictures[0].frame.place in whole:
                    yield whole.pop(pictures.pop(0).frame.place)
        except Trouble as trouble:
            # what was given here has no file that the user knows
            raise Trouble(trouble.message.replace(f"{Path(room).resolve()}/", ""), trouble.status) from None


def _source(scene: Source) -> tuple[bytes, str, Path | None]:
    """A scene's bytes, what it is called, and its file."""
    if isinstance(scene, str) and scene.endswith(".rib") and "\n" not in scene:
        scene = Path(scene)
    if isinstance(scene, Path):
        try:
            return scene.read_bytes(), str(scene), scene
        except OSError as fault:
            raise file_trouble(scene, fault) from fault
    return (scene.encode("latin-1", "replace") if isinstance(scene, str) else scene), "scene", None


def _put(room: Path, shaders: Shaders, textures: Textures) -> None:
    """Writes what was given into a folder, under the names that the program asks for."""
    files: dict[str, bytes] = {}
    for name, given in shaders.items():
        files[f"{name}.sl"] = _bytes(given)
    for name, texture in textures.items():
        files[name] = picture.to_ppm(_levels(name, texture)) if not isinstance(texture, (bytes, Path)) else _bytes(texture)
    for name, data in files.items():
        target = (room / name).resolve()
        if room.resolve() not in target.parents:
            raise Trouble(f"{name!r}: the name of what is given can't lead out of the scene's folder")
        target.parent.mkdir(parents=True, exist_ok=True)
        target.write_bytes(data)


def _bytes(given: str | bytes | Path) -> bytes:
    if isinstance(given, Path):
        try:
            return given.read_bytes()
        except OSError as fault:
            raise file_trouble(given, fault) from fault
    return given.encode("latin-1", "replace") if isinstance(given, str) else given


def _levels(name: str, texture: picture.Picture) -> picture.Picture:
    """An array as a picture's levels. Raises Trouble where it is none."""
    levels = np.asarray(texture)
    if levels.ndim == 2:
        levels = levels[:, :, None]
    if levels.ndim != 3 or levels.shape[2] not in (1, 3, 4) or levels.dtype not in (np.uint8, np.uint16) or 0 in levels.shape:
        raise Trouble(f"texture {name!r}: an array of uint8 or uint16 of shape (height, width, 3) is needed, not {levels.dtype} of {levels.shape}")
    return levels
