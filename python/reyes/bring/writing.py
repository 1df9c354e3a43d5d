"""What is written: the scene, its shaders and textures, and CHANGES, into one folder, after which the renderer checks the scene."""
from __future__ import annotations

from collections.abc import Mapping, Sequence
from pathlib import Path

from reyes import places, program
from reyes.errors import Trouble, file_trouble

from .text import Request, written

SCENE, LIST = "scene.rib", "CHANGES"


def text_of(row: Sequence[Request]) -> tuple[bytes, list[tuple[str, int]]]:
    """The text of requests, and for each of its lines the file and line that it comes of."""
    parts, places = list[bytes](), list[tuple[str, int]]()
    line = 0
    for it in row:
        part = written(it)
        if not part:
            continue
        if parts and it.name and not parts[-1][-1:].isspace():
            part = b"\n" + part
        count = part.count(b"\n")
        if len(places) <= line:
            places.append((it.file, it.line))
        at = it.line
        for k in range(count):
            places.append((it.file, at + k + 1 if it.text is not None else at))
        line += count
        parts.append(part)
    return b"".join(parts), places


def refuse_inputs(folder: Path, files: Mapping[str, bytes], inputs: Sequence[Path]) -> None:
    """Raises Trouble where a file that is to be written is one that is read, with other bytes."""
    for name, data in files.items():
        target = folder / name
        for it in inputs:
            try:
                if target.exists() and it.exists() and target.samefile(it) and it.read_bytes() != data:
                    raise Trouble(f"{target}: it is an input of the scene, so another folder has to take what is written", 2)
            except OSError as fault:
                raise file_trouble(target, fault) from fault


def make_folder(folder: Path) -> None:
    try:
        folder.mkdir(parents=True, exist_ok=True)
    except OSError as it:
        raise file_trouble(folder, it) from it


def put(folder: Path, files: Mapping[str, bytes]) -> None:
    """Writes files into a folder. Raises Trouble where that can't be done."""
    make_folder(folder)
    for name, data in files.items():
        places.replace(folder / name, data)


def remove(folder: Path, names: Sequence[str], inputs: Sequence[Path]) -> None:
    """Takes written files away again, those aside that are inputs and had these bytes before."""
    kept = {it.resolve() for it in inputs}
    for name in names:
        if (folder / name).resolve() not in kept:
            (folder / name).unlink(missing_ok=True)


def checked(folder: Path) -> tuple[int, str]:
    """What `reyes check` says of the scene in a folder: its status and its note. Raises Trouble where there is no program."""
    answer = program.run(["check", SCENE], folder)
    return answer.status, answer.notes[-1] if answer.notes else ""
