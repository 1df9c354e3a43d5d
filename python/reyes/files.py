"""The shaders and textures of a scene: where they are found, what their bytes are, and a folder of links in which the program finds them.

The program looks in the folder in which it runs. Here the scene's folder is searched first, then further ones, then the folder of the
command; a shader that is in none of them is one of the stock, or missing, as the program then says.
"""
from __future__ import annotations

import hashlib
import os
import tempfile
from collections.abc import Iterable, Iterator, Mapping
from contextlib import contextmanager
from dataclasses import dataclass
from pathlib import Path

from reyes import shader
from reyes.errors import file_trouble
from reyes.scene import Scene

LONGEST = 4096  # bytes of a path; a longer string names no file


@dataclass(frozen=True)
class Found:
    """A file as it was found: its path, the SHA-256 of its bytes, and what shows whether it was changed since."""

    path: Path
    digest: str
    state: tuple[int, int]

    def is_as_it_was(self) -> bool:
        """Whether the file has kept its size and its time of change."""
        return _state(self.path) == self.state


Files = Mapping[str, Found]


def folders(scene: Path | None, further: Iterable[str | os.PathLike[str]] = ()) -> list[Path]:
    """The folders to be searched: the scene's, further ones, and that of the command."""
    wanted = [*([scene.parent] if scene else []), *map(Path, further), Path(".")]
    return list(dict.fromkeys(it.absolute() for it in wanted))


def gather(scene: Scene, places: Iterable[Path]) -> dict[str, Found]:
    """Every file that the scene may need, by the name under which the program asks for it: its shaders, and what the strings of
    their parameters and of their texts name. Raises Trouble where one of them can't be read.
    """
    where = list(places)
    found: dict[str, Found] = {}
    names = set(scene.names)
    for name in scene.shaders:
        path = _search(f"{name}.sl", where)
        if path is not None:
            data = _read(path)
            found[f"{name}.sl"] = Found(path, hashlib.sha256(data).hexdigest(), _state(path))
            names |= shader.strings(data)
    for name in sorted(names - found.keys()):
        path = _search(name, where)
        if path is not None:
            found[name] = Found(path, hashlib.sha256(_read(path)).hexdigest(), _state(path))
    return found


def digest(files: Files) -> str:
    """A text that differs where the name or the bytes of a file differ."""
    lines = "".join(f"{it.digest} {name}\0" for name, it in sorted(files.items()))
    return hashlib.sha256(lines.encode()).hexdigest()


def changed(files: Files) -> list[str]:
    """The names of the files that were changed since they were found."""
    return [name for name, it in files.items() if not it.is_as_it_was()]


@contextmanager
def folder_of_links(files: Files, replaced: Mapping[str, bytes] | None = None) -> Iterator[Path]:
    """A folder in which each file stands under the name that the program asks for, as a link, for the length of a `with`; those that are
    replaced have other bytes there.
    """
    other = replaced or {}
    with tempfile.TemporaryDirectory(prefix="reyes-") as room:
        deep = inner(Path(room), [*files, *other])
        for name in dict.fromkeys([*files, *other]):
            target = within(deep, name)
            if target is not None and name in other:
                target.write_bytes(other[name])
            elif target is not None and not target.is_symlink():
                target.symlink_to(files[name].path)
        yield deep


@contextmanager
def folder_of_bytes(files: Mapping[str, bytes]) -> Iterator[Path]:
    """The same of files whose bytes were brought here from another machine."""
    with tempfile.TemporaryDirectory(prefix="reyes-") as room:
        deep = inner(Path(room), files)
        for name, data in files.items():
            target = within(deep, name)
            if target is not None:
                target.write_bytes(data)
        yield deep


def inner(room: Path, names: Iterable[str]) -> Path:
    """A folder so deep that a name which goes up (`../wood.ppm`) still stands within the room."""
    depth = max((os.path.normpath(name).split("/").count("..") for name in names), default=0)
    deep = room.joinpath(*["in"] * (depth + 1))
    deep.mkdir(parents=True)
    return deep


def within(deep: Path, name: str) -> Path | None:
    """Where a name stands in such a folder; None for a whole path, which is read where it is."""
    if os.path.isabs(name):
        return None
    target = Path(os.path.normpath(deep / name))
    # a folder on the way has to be there as it is written: `a/../b.ppm` is found only where `a` is
    for part in Path(name).parents:
        Path(os.path.normpath(deep / part)).mkdir(parents=True, exist_ok=True)
    return target


def _search(name: str, places: Iterable[Path]) -> Path | None:
    """The first file of this name, or None."""
    if not name or len(name) > LONGEST or name.count("..") > 32 or not name.isprintable():
        return None
    for place in places:
        path = place / name
        try:
            if path.is_file():
                return path.resolve()
        except OSError:
            continue
    return None


def _read(path: Path) -> bytes:
    try:
        return path.read_bytes()
    except OSError as fault:
        raise file_trouble(path, fault) from fault


def _state(path: Path) -> tuple[int, int]:
    try:
        about = path.stat()
    except OSError:
        return (-1, -1)
    return about.st_size, about.st_mtime_ns
