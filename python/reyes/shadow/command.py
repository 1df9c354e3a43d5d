"""`shadow`: draws a scene with shadows, by maps of depths from its lights."""
from __future__ import annotations

import argparse
from collections.abc import Iterator, Mapping, Sequence
from contextlib import contextmanager
from dataclasses import dataclass, field, replace
from pathlib import Path

from reyes import files, places, progress, rendering, workers
from reyes.bring.text import Request, requests, written
from reyes.drawing import Drawing, Settings
from reyes.errors import USAGE, Trouble, file_trouble
from reyes.shadow import maps, scenes, surfaces, views

EXAMPLE = """example:
  python3 -m reyes shadow examples/tea.rib -o tea.png

Each light that has a direction, at most four, gets a map: a picture of depths drawn from it. The surfaces look the maps up, and make shadows
that are sharp where things touch and softer with distance; what lets light through throws a lighter one. Of a scene's own surfaces those
that call `diffuse` or `specular` are rewritten. `Attribute "visibility" "float transmission" [0]` marks what throws no shadow, and what wears
the surface `constant` throws none. The maps, the shaders and the changed scene stay in the folder OUT.shadows, where `reyes render scene.rib`
draws the same picture; maps are drawn again only where what draws them has changed. docs/SHADOWS.md says more."""


@dataclass
class Made:
    """What is made of a scene: the names of its lit surfaces and of its casters by those of its surfaces, and the texts of all of them."""

    lit: dict[str, str] = field(default_factory=dict)
    casters: dict[str, str] = field(default_factory=dict)
    texts: dict[str, bytes] = field(default_factory=dict)


def add_arguments(parser: argparse.ArgumentParser) -> None:
    parser.description = "Draws a scene with shadows, by maps of depths that are drawn from its lights."
    parser.epilog = EXAMPLE
    parser.add_argument("scene", metavar="SCENE", help="the scene's file")
    parser.add_argument("-o", "--output", metavar="OUT", required=True, help="where the picture goes: .png, .ppm, .tif, .exr ..")
    parser.add_argument("--lights", type=_handles, metavar="N,N", help="the handles of the lights that throw shadows; all that have a direction")
    parser.add_argument("--map", type=_side, default=1536, metavar="SIDE", help="the longer side of a map in samples, a multiple of 128 up to 1664 (1536)")
    parser.add_argument("--softness", type=float, default=0.35, metavar="R", help="the radius of a spot or point light, in world space (0.35); 0 for hard shadows")
    parser.add_argument("--angle", type=float, default=1.2, metavar="A", help="the radius of a distant light in degrees (1.2)")
    parser.add_argument("--bias", type=float, metavar="B", help="how far under the map a surface may lie and be lit (one and a half of its samples)")
    parser.add_argument("--taps", type=_count, default=24, metavar="N", help="look-ups of a soft edge (24)")
    parser.add_argument("--seek", type=_count, default=8, metavar="N", help="look-ups that find what throws it (8)")
    parser.add_argument("--no-cast", action="append", default=[], metavar="SURFACE", help="a surface whose things throw no shadow: walls around the scene, skies")
    parser.add_argument("--without", action="append", default=[], metavar="SURFACE", help="a surface whose things are left out: painted shadows")
    parser.add_argument("-q", "--quiet", action="store_true", help="no bar, and no line but for faults")
    workers.add_arguments(parser)
    rendering.add_changes(parser)


def main(arguments: argparse.Namespace) -> int:
    with begun(arguments, "shadow", "shadows") as it:
        made, text = _made(it, arguments)
        put(it.room, {f"{name}.sl": body for name, body in made.texts.items()})
        draw(it, text, arguments)
    return 0


@dataclass(frozen=True)
class Begun:
    """A scene that is to be drawn otherwise: its bytes, what the user calls it, its path, the folder for what is made, and how it is drawn."""

    data: bytes
    name: str
    place: Path
    room: Path
    settings: Settings


@contextmanager
def begun(arguments: argparse.Namespace, command: str, ending: str) -> Iterator[Begun]:
    """The scene that a command is given, accepted, with its own files linked into the folder for what is made. Raises Trouble for wrong
    words and for the scene's own faults, at its own lines.
    """
    places.ending(arguments.output)
    data, name, place = rendering.scene_of(arguments.scene)
    if place is None:
        raise Trouble(f"{command} wants a scene's file, whose folder has its shaders", USAGE)
    room = Path(f"{arguments.output}.{ending}")
    with workers.chosen(arguments) as (executor, jobs):
        settings = rendering.settings(arguments, executor, jobs)
        drawing = Drawing(data, name, place, settings)
        drawing.accepted()
        link(room, drawing.files)
        yield Begun(data, name, place, room, replace(settings, given=str(room)))


def _made(given: Begun, arguments: argparse.Namespace) -> tuple[Made, bytes]:
    """Draws the maps, and gives the shaders and the scene that look them up."""
    place, settings, room = given.place, given.settings, given.room
    row = list(requests(given.data, str(place)))
    unseen = {*arguments.no_cast, *arguments.without, "constant"}
    scene = scenes.read(row, lambda surface: surface not in unseen)
    folders = files.folders(place, settings.search)
    found = dict(_views(scene, folders, arguments))
    made = _surfaces(scene, folders, max(len(found), 1))
    thin = any(it.casts and not it.opaque for it in scene.shapes) or any(it != "cast" for it in made.casters.values())
    drawn = {number: maps.Map(f"light{number}.ppm", maps.text_of(scene, view, f"light{number}.ppm", made.casters)) for number, view in found.items()}
    put(room, {f"{it}.sl": body for it, body in made.texts.items()})
    for number, each in drawn.items():
        told = progress.counted(found[number].sides[1], False, True)
        maps.draw(each, room, place, Settings(jobs=settings.jobs, executor=settings.executor, search=settings.search, given=str(room)), told)
    shared = f' "float shadow_taps" [{arguments.taps}] "float shadow_search" [{arguments.seek}] '
    softness = max(arguments.softness, 0.0)
    looks = [views.parameters(view, at, drawn[number].name, softness, arguments.angle, arguments.bias, thin) for at, (number, view) in enumerate(found.items(), 1)]
    return made, b"".join(_changed(scene, made, (shared + "\n  ".join(looks)).encode(), set(arguments.without)))


def _views(scene: scenes.Scene, folders: Sequence[Path], arguments: argparse.Namespace) -> Iterator[tuple[int, views.View]]:
    """The views of the lights that throw shadows, by their handles."""
    seen, count = scene.seen(), 0
    for lamp in sorted(scene.lamps, key=lambda it: it.handle):
        if arguments.lights is not None and lamp.handle not in arguments.lights:
            continue
        kind = views.kind_of(lamp, text_of_shader(lamp.shader, folders))
        view = views.fitted(lamp, kind, scene, seen, arguments.map) if kind else None
        if view is not None and count < surfaces.MOST_LIGHTS:
            count += 1
            yield lamp.handle, view


def _surfaces(scene: scenes.Scene, folders: Sequence[Path], lights: int) -> Made:
    """The texts of the surfaces that look maps up, and of those that draw them."""
    made = Made(texts={"cast": surfaces.plain_caster()})
    for name in sorted({it.word(0) or "" for it in scene.row if it.name == "Surface"}):
        own = text_of_shader(name, folders)
        text = own if own is not None else surfaces.stock(name)
        if text is None:
            continue
        if own is not None and surfaces.has_own_opacity(own, name):
            made.casters[name] = f"cast_{name}"
            made.texts[f"cast_{name}"] = surfaces.caster(own, name)
        lit = surfaces.lit(text, name, lights)
        if lit is None:
            continue
        if lit.left:
            print(f"reyes: {name}: {lit.left} of its sums over lights stand where no shadow can be put", flush=True)
        made.lit[name] = f"lit_{name}"
        made.texts[f"lit_{name}"] = lit.text
    return made


def _changed(scene: scenes.Scene, made: Made, given: bytes, without: set[str]) -> Iterator[bytes]:
    """The scene with its lit surfaces; what wears a surface of `without` is left out."""
    shapes: Mapping[int, scenes.Shape] = {it.place: it for it in scene.shapes}
    for place, it in enumerate(scene.row):
        shape = shapes.get(place)
        if shape is not None and shape.surface in without:
            yield it.tail
        elif it.name == "Surface" and (it.word(0) or "") in made.lit:
            yield with_more(it.made(it.name, made.lit[it.word(0) or ""], *it.args[1:]), given) + it.tail
        elif shape is not None and shape.displaced and shape.surface in made.lit:
            yield with_more(it, b' "constant float shadow_displaced" [1]') + it.tail
        else:
            yield written(it)


def with_more(it: Request, more: bytes) -> bytes:
    """A request's bytes with more after its last argument, less what stands between it and the next request."""
    body = written(it)
    return body[: len(body) - len(it.tail)].rstrip() + more if it.text is not None else body.rstrip() + more


def draw(given: Begun, text: bytes, arguments: argparse.Namespace) -> None:
    """Draws the picture of the changed scene, which stays in the folder."""
    put(given.room, {"scene.rib": text})
    drawing = Drawing(text, given.name, given.place, given.settings)
    for frame in drawing.frames:
        whole = drawing.picture(frame, None)
        told = progress.counted(whole.kept.rows[1] - whole.kept.rows[0], False, arguments.quiet)
        try:
            for it in drawing.draw([whole], told):
                rendering.save(it, arguments.output)
        finally:
            told.close()


def text_of_shader(name: str, folders: Sequence[Path]) -> bytes | None:
    """The text of a shader of the scene's own, or None."""
    path = next((folder / f"{name}.sl" for folder in folders if name and (folder / f"{name}.sl").is_file()), None)
    try:
        return path.read_bytes() if path is not None else None
    except OSError as fault:
        raise file_trouble(path, fault) from fault


def put(room: Path, texts: Mapping[str, bytes]) -> None:
    """Writes files into the folder that keeps what is made."""
    try:
        room.mkdir(exist_ok=True)
    except OSError as fault:
        raise file_trouble(room, fault) from fault
    for name, text in texts.items():
        places.replace(room / name, text)


def link(room: Path, found: files.Files) -> None:
    """Makes the folder that keeps what is made one in which the program finds a scene's own files too, by links: none is ever an older copy."""
    for name, it in found.items():
        if Path(name).is_absolute() or ".." in Path(name).parts or it.path.parent == room.resolve():
            continue
        target = room / name
        try:
            target.parent.mkdir(parents=True, exist_ok=True)
            target.unlink(missing_ok=True)
            target.symlink_to(it.path)
        except OSError as fault:
            raise file_trouble(target, fault) from fault


def _handles(word: str) -> set[int]:
    if not all(it.isdigit() for it in word.split(",")):
        raise argparse.ArgumentTypeError(f"{word!r} is no list of lights such as 1,2")
    return {int(it) for it in word.split(",")}


def _side(word: str) -> int:
    if not word.isdigit() or not 128 <= int(word) <= 1664 or int(word) % views.STEP:
        raise argparse.ArgumentTypeError(f"{word!r} is no multiple of 128 from 128 to 1664")
    return int(word)


def _count(word: str) -> int:
    if not word.isdigit() or not 1 <= int(word) <= 256:
        raise argparse.ArgumentTypeError(f"{word!r} is no number of look-ups from 1 to 256")
    return int(word)
