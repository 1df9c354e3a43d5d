"""Where pictures and other files go: the endings of pictures' names, and putting a file in its place in one step. Nothing here needs NumPy."""
from __future__ import annotations

import os
import tempfile
from pathlib import Path
from typing import Any

from reyes.errors import Trouble, file_trouble, missing_library

ENDINGS = (".ppm", ".png", ".tif", ".tiff", ".exr", ".jpg", ".jpeg")
BY_OIIO = ENDINGS[2:]


def ending(path: str | os.PathLike[str]) -> str:
    """The ending of a picture's path, in small letters; raises Trouble where it isn't one of ENDINGS."""
    found = Path(path).suffix.lower()
    if found not in ENDINGS:
        raise Trouble(f"{path}: a picture's name ends with one of {' '.join(ENDINGS)}", 2)
    return found


def writable(path: str | os.PathLike[str]) -> None:
    """Raises Trouble where a picture can't be written to a path: no folder is there, or no library for its form."""
    if not Path(path).absolute().parent.is_dir():
        raise Trouble(f"{path}: its folder isn't there", 8)
    if Path(path).suffix.lower() in BY_OIIO:
        oiio()


def replace(path: str | os.PathLike[str], data: bytes) -> None:
    """Puts a file of these bytes in a path's place in one step; what can't be replaced, such as /dev/stdout, is written to."""
    target = Path(path)
    try:
        if target.exists() and not target.is_file():
            target.write_bytes(data)
            return
        with tempfile.NamedTemporaryFile(dir=target.parent, prefix=f".{target.name}.", delete=False) as out:
            try:
                out.write(data)
                out.flush()
                os.chmod(out.name, 0o666 & ~_mask())
                os.replace(out.name, target)
            except BaseException:
                os.unlink(out.name)
                raise
    except OSError as fault:
        raise file_trouble(path if not isinstance(fault, FileNotFoundError) else f"{path}: its folder", fault) from fault


def oiio() -> Any:
    """OpenImageIO. Raises Trouble where it isn't installed."""
    try:
        import OpenImageIO
    except ModuleNotFoundError as fault:
        raise missing_library("OpenImageIO") from fault
    return OpenImageIO


def _mask() -> int:
    """The permissions that new files are denied."""
    mask = os.umask(0)
    os.umask(mask)
    return mask
