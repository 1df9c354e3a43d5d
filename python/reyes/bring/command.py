"""`python3 -m reyes bring_in`: a scene as people have it, with its shaders and textures, in the words of the renderer's profile."""
from __future__ import annotations

import argparse
import os
import sys
import warnings
from collections.abc import Sequence
from dataclasses import dataclass
from pathlib import Path

from reyes.errors import MISSING, USAGE, Trouble

from . import culling, passes, writing
from .changes import LEFT, NEAR, NEVER, SAME, Changes
from .omissions import PRIMITIVES
from .reading import Folders, Unreadable, load
from .shaders import alone
from .telling import Lines, Silent, too_large
from .text import Request
from .work import Work

HEAD = Changes().text().encode()[:16]
EXAMPLE = """
A change is `=` where nothing is lost, `~` where it is an approximation, `!` where something is left out, and `X` where it can't be
brought. FOLDER gets scene.rib, the shaders, the textures and the list CHANGES; `reyes check` has the last word. Status: 0 where all
changes are `=`, 1 with `~`, 2 with `!`, 3 with `X` (and then CHANGES alone is written). What isn't allowed is told, and stays as it was.

example:
  python3 -m reyes bring_in examples/exporters/geomview.rib brought
  cd brought && reyes render scene.rib
  python3 -m reyes bring_in wood.sl brought
"""


def add_arguments(parser: argparse.ArgumentParser) -> None:
    parser.description = "Brings a scene in: any RIB text, gzipped or binary too, with its archives, shaders and textures."
    parser.epilog = EXAMPLE
    parser.add_argument("scene", metavar="SCENE.rib", type=Path, help="the scene, or a shader alone (SHADER.sl); its folder and its search paths are searched for the rest")
    parser.add_argument("folder", metavar="FOLDER", type=Path, help="the folder that is written, made where it isn't there")
    parser.add_argument("--path", action="append", default=[], type=Path, metavar="PLACE",
                        help="a folder that is searched too, for archives, shaders and textures; may be given again")
    parser.add_argument("--near", action="store_true", help="make approximations too (`~`)")
    parser.add_argument("--without", action="store_true", help="leave out, too, what there is nothing for (`!`); takes --near in")


@dataclass(frozen=True)
class Brought:
    """A scene in the profile's words: its text, where each line comes of, the files beside it, and the changes."""

    text: bytes
    places: list[tuple[str, int]]
    files: dict[str, bytes]
    changes: Changes


def bring(scene: Path, may: str, path: Sequence[Path] = (), telling: Silent = Silent()) -> Brought:
    """Brings a scene in. Subdivision surfaces get less room, and then what shows nothing goes, until the limits hold.

    Raises Trouble where the scene can't be read.
    """
    try:
        row, told = load(scene, scene.name, telling)
    except Unreadable as it:
        raise Trouble(f"{scene}: {it}", 3) from None
    if large := too_large(row):
        telling.say(f"{scene}: {large}")
    with warnings.catch_warnings():
        # numbers of a scene may be anything: what isn't finite is written as 0 or as the greatest number
        warnings.simplefilter("ignore", RuntimeWarning)
        return brought_row(scene, row, told, may, path, telling)


def brought_row(scene: Path, row: Sequence[Request], told: Sequence[str], may: str, path: Sequence[Path], telling: Silent) -> Brought:
    """The same for the requests of a scene; `told` is what reading them took."""
    for depth in (3, 2, 1, 0):
        work = Work(Changes(may), Folders(scene, path), depth, telling)
        for words in told:
            work.changes.tell(SAME, scene.name, 0, words)
        found = passes.whole(work, row)
        too_much = culling.passes_limit(found)
        if not too_much or not work.refined:
            break
    if too_much:
        found = culling.culled(work, found)
    outside(work, found)
    files = {**{f"{name}.sl": text for name, text in work.shelf.files.items()}, **work.textures.files}
    return Brought(*writing.text_of(found), files, work.changes)


def outside(work: Work, row: list[Request]) -> None:
    """Tells where there is nothing to draw: a text without a world is a part of a scene."""
    if not any(it.name == "WorldBegin" for it in row):
        first = next((it for it in row if it.name in PRIMITIVES), None)
        if first is not None:
            work.tell(NEVER, first, "a primitive outside of a world: the text is a part of a scene")


def checked(folder: Path, brought: Brought) -> None:
    """Has the renderer check what was written, and tells what it refuses at the place where that comes of."""
    status, note = writing.checked(folder)
    if status == 0:
        return
    name, _, rest = note.partition(":")
    line, _, code = rest.partition(":")
    file, at = name, int(line) if line.strip().isdigit() else 0
    if name == writing.SCENE and 0 < at <= len(brought.places):
        file, at = brought.places[at - 1]
    brought.changes.tell(NEVER, file, at, f"refused by the renderer: {code.strip() or note or f'status {status}'}")


def main(arguments: argparse.Namespace) -> int:
    scene: Path = arguments.scene
    folder: Path = arguments.folder
    if not scene.is_file():
        raise Trouble(f"{scene}: it is no file", USAGE) if scene.exists() else Trouble(f"{scene}: missing", MISSING)
    if folder.exists() and not folder.is_dir():
        raise Trouble(f"{folder}: it isn't a folder", USAGE)
    may = SAME + (NEAR if arguments.near or arguments.without else "") + (LEFT if arguments.without else "")
    if scene.suffix.lower() == ".sl":
        return alone.main(scene, folder, may, arguments.path)
    brought = bring(scene, may, arguments.path, Lines())
    changes = brought.changes
    files = {writing.SCENE: brought.text, **brought.files}
    given = [scene, *inputs(scene)]
    writing.refuse_inputs(folder, {**files, writing.LIST: b""}, given)
    write_list(folder, changes)
    if changes.status() < 3:
        writing.put(folder, files)
        if not changes.held():
            checked(folder, brought)
            if changes.status() == 3:
                writing.remove(folder, list(files), given)
            write_list(folder, changes)
    print("".join(f"{it}\n" for it in changes.lines()), end="")
    tell_held(changes)
    return changes.status()


def write_list(folder: Path, changes: Changes) -> None:
    writing.put(folder, {writing.LIST: changes.text().encode("utf-8", "replace")})


def inputs(scene: Path) -> list[Path]:
    """The files beside a scene, which nothing that is written may take the place of."""
    with os.scandir(scene.parent) as row:
        found = [Path(it.path) for it in row if it.is_file()]
    return [it for it in found if it.name != writing.LIST or not it.read_bytes().startswith(HEAD)]


def tell_held(changes: Changes) -> None:
    held = {it.kind for it in changes.held()}
    if held and changes.status() < 3:
        word = "--without" if LEFT in held else "--near"
        print(f"reyes: some changes weren't made, and the scene isn't checked: {word} makes them", file=sys.stderr)
