"""Reading and writing pictures: PPM, PNG by pypng, and TIFF, EXR and JPEG by OpenImageIO.

A picture is a NumPy array of shape (height, width, channels), uint8 or uint16, rows from the top; 0 is black and 255 or 65535 the most.
"""
from __future__ import annotations

import io
import os
import re
from collections.abc import Mapping
from pathlib import Path
from typing import Any

import numpy as np
import png
from numpy.typing import NDArray

from reyes import places
from reyes.errors import Trouble, file_trouble

Picture = NDArray[Any]
SPACE = rb"(?:[ \t\r\n]|#[^\n]*\n)"
HEADER = re.compile(rb"P6" + (SPACE + rb"+([0-9]{1,20})") * 3 + rb"[ \t\r\n]")


def read(path: str | os.PathLike[str]) -> Picture:
    """The picture of a file, by its first bytes. Raises Trouble where it is missing, can't be read or isn't one of ENDINGS' forms."""
    try:
        data = Path(path).read_bytes()
    except OSError as fault:
        raise file_trouble(path, fault) from fault
    if data[:2] == b"P6":
        return from_ppm(data, path)
    if data[:8] == b"\x89PNG\r\n\x1a\n":
        return from_png(data, path)
    return _read_by_oiio(path)


def from_ppm(data: bytes, name: object = "PPM") -> Picture:
    """The picture of a binary PPM's bytes, in full range: levels above 255 become uint16. Raises Trouble where it is none."""
    head = HEADER.match(data)
    if head is None:
        raise Trouble(f"{name}: its header isn't that of a binary PPM (P6)", 3)
    width, height, most = (int(it) for it in head.groups())
    if not (1 <= width <= 65536 and 1 <= height <= 65536 and 1 <= most <= 65535):
        raise Trouble(f"{name}: {width} by {height} with levels up to {most} is no picture's size", 3)
    count, wide = 3 * width * height, most > 255
    if len(data) - head.end() < count * (2 if wide else 1):
        raise Trouble(f"{name}: {width} by {height} is its size, and some of its rows are missing", 3)
    levels: Picture = np.frombuffer(data, ">u2" if wide else "u1", count, head.end()).reshape(height, width, 3)
    full = 65535 if wide else 255
    if most != full:
        levels = np.minimum(levels, most).astype(np.uint32) * full // most
    picture: Picture = levels.astype(np.uint16 if wide else np.uint8)
    return picture


def to_ppm(picture: Picture) -> bytes:
    """The bytes of a binary PPM as the renderer writes it; a fourth channel is left out, one of gray becomes three."""
    height, width, channels = picture.shape
    colours = np.repeat(picture, 3, axis=2) if channels < 3 else picture[:, :, :3]
    head = f"P6\n{width} {height}\n{65535 if picture.dtype == np.uint16 else 255}\n".encode()
    return head + np.ascontiguousarray(colours, ">u2" if picture.dtype == np.uint16 else "u1").tobytes()


def from_png(data: bytes, name: object = "PNG") -> Picture:
    """The picture of a PNG's bytes, of eight bits or sixteen, with its alpha where it has one. Raises Trouble where it is none."""
    try:
        reader = png.Reader(bytes=data)
        width, height, rows, about = reader.asDirect()
        levels: Picture = np.vstack([np.asarray(row) for row in rows]).reshape(height, width, about["planes"])
    except (png.Error, ValueError, OverflowError, EOFError) as fault:
        raise Trouble(f"{name}: no PNG that can be read ({str(fault).splitlines()[0] if str(fault) else 'cut short'})", 3) from fault
    depth = int(about["bitdepth"])
    if depth > 8:
        return levels.astype(np.uint16)
    scaled: Picture = (levels.astype(np.uint32) * 255 // (2**depth - 1)).astype(np.uint8)
    return scaled


def to_png(picture: Picture) -> bytes:
    """The bytes of a PNG of as many bits and channels as the picture has."""
    height, width, channels = picture.shape
    out = io.BytesIO()
    writer = png.Writer(width, height, bitdepth=picture.dtype.itemsize * 8, greyscale=channels < 3, alpha=channels in (2, 4))
    writer.write_packed(out, (row.tobytes() for row in np.ascontiguousarray(picture, f">u{picture.dtype.itemsize}")))
    return out.getvalue()


def larger(picture: Picture, side: int) -> Picture:
    """The picture with each pixel as a square of `side` pixels."""
    return np.repeat(np.repeat(picture, side, axis=0), side, axis=1) if side > 1 else picture


def write(path: str | os.PathLike[str], picture: Picture) -> None:
    """Writes a picture by the ending of its path, whole or not at all. Raises Trouble where that can't be done."""
    form = places.ending(path)
    if form in places.BY_OIIO:
        write_layers(path, {"": picture})
    else:
        places.replace(path, to_ppm(picture) if form == ".ppm" else to_png(picture))


def write_layers(path: str | os.PathLike[str], layers: Mapping[str, Picture]) -> None:
    """Writes pictures of one size into one TIFF, EXR or JPEG: the layer "" has the channels R, G, B and A, any other its name before
    them (`depth.Y` where it has one channel). EXR gets floats from 0 to 1. Raises Trouble where OpenImageIO is missing or refuses.
    """
    oiio = places.oiio()
    names, parts = [], []
    for layer, picture in layers.items():
        letters = {1: "Y", 2: "YA", 3: "RGB", 4: "RGBA"}[picture.shape[2]]
        names += [f"{layer}.{letter}" if layer else letter for letter in letters]
        parts.append(picture)
    if places.ending(path) == ".exr":
        parts = [(it / np.float32(np.iinfo(it.dtype).max)).astype(np.float32) for it in parts]
    whole = np.ascontiguousarray(np.concatenate(parts, axis=2))
    kind = {"uint8": oiio.UINT8, "uint16": oiio.UINT16, "float32": oiio.FLOAT}[whole.dtype.name]
    about = oiio.ImageSpec(whole.shape[1], whole.shape[0], whole.shape[2], kind)
    about.channelnames = names
    out = oiio.ImageOutput.create(os.fspath(path))
    if out is None or not out.open(os.fspath(path), about) or not out.write_image(whole) or not out.close():
        raise Trouble(f"{path}: {(out.geterror() if out else oiio.geterror()).splitlines()[0]}", 8)


def _read_by_oiio(path: str | os.PathLike[str]) -> Picture:
    oiio = places.oiio()
    source = oiio.ImageInput.open(os.fspath(path))
    if source is None:
        raise Trouble(f"{path}: no picture in a form that can be read", 3)
    wide = source.spec().format.basetype not in (oiio.UINT8, oiio.INT8)
    levels = source.read_image(oiio.UINT16 if wide else oiio.UINT8)
    source.close()
    if levels is None:
        raise Trouble(f"{path}: no picture in a form that can be read", 3)
    return np.asarray(levels)
