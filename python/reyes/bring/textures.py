"""Textures as binary PPM files beside the scene, whatever form they have where they are found."""
from __future__ import annotations

import math
import re
from collections.abc import Callable
from dataclasses import dataclass, field
from pathlib import Path

import numpy as np

from reyes import picture
from reyes.errors import Trouble

from .changes import LEFT, NEAR, SAME
from .reading import Folders

MOST = 2048
MOST_BYTES = 1 << 24
ENDINGS = ("", ".ppm", ".png", ".tif", ".tiff", ".jpg", ".jpeg", ".exr")
FORMS = (".tif", ".tiff", ".png", ".jpg", ".jpeg", ".ppm", ".exr", ".tga", ".bmp", ".gif", ".sgi", ".rgb", ".iff")
FILE = re.compile(r"\.[A-Za-z]\w{1,4}$")
WHITE = b"P6\n1 1\n255\n\xff\xff\xff"
Tell = Callable[[str, str], bool]


@dataclass
class Textures:
    """What the scene looks up. `files` holds the bytes that are written, by safe names; `made` says of what `MakeTexture` made a
    file; `pictures` are the names that the scene draws under, which no texture may have."""

    folders: Folders
    made: dict[str, str] = field(default_factory=dict)
    files: dict[str, bytes] = field(default_factory=dict)
    names: dict[str, str] = field(default_factory=dict)
    pictures: frozenset[str] = frozenset()

    def source(self, name: str) -> Path | None:
        """The file of a texture: by what it was made of, by its own name, or by that with the ending of a form of pictures."""
        stem = re.sub(r"\.\w+$", "", name)
        for word in dict.fromkeys([self.made.get(name, name), name]):
            path = self.folders.find("texture", word)
            if path is not None:
                return path
        return self.folders.find("texture", stem, FORMS)

    def use(self, name: str, tell: Tell) -> str:
        """The name under which a texture is written; that of one that can't be had stays where nothing may be left out."""
        if name not in self.names:
            path = self.source(name)
            if path is None:
                if not tell(LEFT, f"texture `{name}` isn't here: white in its place"):
                    return name
                data: bytes | None = WHITE
            else:
                data = self.read(path, name, tell)
            if data is None:
                return name
            self.names[name] = self.keep(name, data)
        return self.names[name]

    def keep(self, name: str, data: bytes) -> str:
        """Puts a texture's bytes under a safe name that no other has."""
        base = re.sub(r"[^\w.\-]", "_", re.split(r"[/\\]", name)[-1], flags=re.ASCII).lstrip(".-")[-128:] or "texture"
        stem = base if base.endswith(".ppm") else re.sub(r"\.\w+$", "", base) + ".ppm"
        if name in (base, stem) and path_holds(self.source(name), data):
            stem = base
        found, count = stem, 2
        while self.files.get(found, data) != data or found in self.pictures:
            found, count = f"{stem[:-4]}_{count}.ppm", count + 1
        self.files[found] = data
        return found

    def read(self, path: Path, name: str, tell: Tell) -> bytes | None:
        """The bytes of a texture as PPM, or None where it can't be read and that is told."""
        try:
            data = path.read_bytes()
        except OSError:
            data = b""
        if is_texture(data):
            return data
        try:
            found = picture.read(path)
        except Trouble as it:
            return WHITE if tell(LEFT, f"texture `{name}` can't be read, white in its place: {it.message}") else None
        if max(found.shape[:2]) > MOST or found.nbytes * 3 // found.shape[2] > MOST_BYTES - 64:
            if not tell(NEAR, f"texture `{name}` made smaller: a texture has at most {MOST} places a side"):
                return None
            found = smaller(found)
        tell(SAME, "textures turned into PPM files")
        return picture.to_ppm(found)


def path_holds(path: Path | None, data: bytes) -> bool:
    """Whether a file has just these bytes."""
    try:
        return path is not None and path.read_bytes() == data
    except OSError:
        return False


def is_texture(data: bytes) -> bool:
    """Whether the renderer reads these bytes as a texture."""
    if data[:2] != b"P6" or len(data) > MOST_BYTES:
        return False
    try:
        return max(picture.from_ppm(data).shape[:2]) <= MOST
    except Trouble:
        return False


def smaller(found: picture.Picture) -> picture.Picture:
    """A picture whose places are the means of squares of another's, no larger than a texture may be."""
    height, width, channels = found.shape
    room = math.ceil(math.sqrt(height * width * 3 * found.dtype.itemsize / (MOST_BYTES - 64)))
    side = max(math.ceil(max(height, width) / MOST), room)
    padded = np.pad(found, ((0, -height % side), (0, -width % side), (0, 0)), mode="edge")
    blocks = padded.reshape(padded.shape[0] // side, side, padded.shape[1] // side, side, channels)
    mean: picture.Picture = np.rint(blocks.mean(axis=(1, 3))).astype(found.dtype)
    return mean
