"""`passes`: pictures beside the picture (coverage, depth, normals, parameters, objects, micropolygons), by the same program over the scene
with other last lines in its surfaces.
"""
from __future__ import annotations

import argparse
import tempfile
from collections.abc import Mapping, Sequence
from dataclasses import dataclass
from pathlib import Path

import numpy as np

from reyes import files, passing, picture, places, progress, rendering, workers
from reyes.drawing import Drawing, Settings
from reyes.errors import USAGE, Trouble

EXAMPLE = """examples:
  python3 -m reyes passes examples/tea.rib --alpha -o tea.png                 the picture with its coverage, as PNG with alpha
  python3 -m reyes passes examples/tea.rib --alpha --depth --ids -o tea.exr   all as layers of one EXR

With --alpha alone OUT is the picture with its alpha. Each other pass goes to OUT with its name before the ending (tea.depth.png), or into
OUT as a layer where that is an EXR. All have sixteen bits a channel. Alpha has the scene's samples and filter, so it is the coverage by
which the picture's own colours are weighed: the mean of the three channels of Oi. The other passes take one sample a pixel and mix nothing:
  depth    0 at the near plane, 1 at the far one and where nothing is
  normals  the camera's x, y and z of N, from -1 to 1 as 0 to 1
  uv       u as red, v as green
  ids      a colour for each primitive
  cells    a colour for each micropolygon"""


@dataclass(frozen=True)
class Layer:
    """A pass that was drawn: its name in an EXR ("" for the picture itself), and its levels, uint16 of shape (height, width, channels)."""

    name: str
    levels: picture.Picture


def add_arguments(parser: argparse.ArgumentParser) -> None:
    parser.description = "Draws pictures beside a scene's picture: coverage as alpha, depth, normals and more."
    parser.epilog = EXAMPLE
    parser.add_argument("scene", metavar="SCENE", help="the scene's file, or - for standard input")
    parser.add_argument("-o", "--output", metavar="OUT", required=True, help="where they go: .png, .tif, .exr; # stands for digits of the frame's number")
    for name, about in passing.PASSES.items():
        parser.add_argument(f"--{name}", action="append_const", dest="passes", const=name, help=about)
    parser.add_argument("-q", "--quiet", action="store_true", help="no bar, and no line but for faults")
    workers.add_arguments(parser)
    rendering.add_changes(parser)


def main(arguments: argparse.Namespace) -> int:
    wanted: Sequence[str] = tuple(dict.fromkeys(arguments.passes or ()))
    form = places.ending(arguments.output)
    if not wanted:
        raise Trouble("which passes? --alpha, --depth, --normals, --uv, --ids and --cells", USAGE)
    if form in (".ppm", ".jpg", ".jpeg"):
        raise Trouble(f"{arguments.output}: passes have sixteen bits and an alpha, so their form is .png, .tif or .exr", USAGE)
    data, name, place = rendering.scene_of(arguments.scene)
    drawn: dict[str, dict[int, tuple[str, picture.Picture]]] = {}
    with workers.chosen(arguments) as (executor, jobs):
        settings = rendering.settings(arguments, executor, jobs)
        for each in (("colour",) if "alpha" in wanted else ()) + tuple(wanted):
            drawn[each] = _drawn(passing.changed(data, name, place, settings.search, each), name, place, settings, arguments)
    for number in next(iter(drawn.values())):
        target = drawn[next(iter(drawn))][number][0]
        _write(target, [_layer(each, {it: frames[number][1] for it, frames in drawn.items()}, data, form) for each in wanted])
    return 0


def _drawn(
    changed: passing.Changed, name: str, place: Path | None, settings: Settings, arguments: argparse.Namespace
) -> dict[int, tuple[str, picture.Picture]]:
    """The frames of a scene that was changed for a pass, by their numbers, each with where its passes go."""
    with tempfile.TemporaryDirectory(prefix="reyes-pass-") as room:
        for shader, text in changed.shaders.items():
            target = Path(room) / f"{shader}.sl"
            target.parent.mkdir(parents=True, exist_ok=True)
            target.write_bytes(text)
        search = tuple(str(it) for it in files.folders(place, settings.search))
        drawing = Drawing(changed.data, name, place, Settings(settings.changes, settings.frames, settings.jobs, settings.words, search, settings.executor, room))
        if not drawing.frames:
            raise Trouble(f"{name}: {rendering.NO_FRAME}")
        pictures = [drawing.picture(frame, None) for frame in drawing.frames]
        told = progress.counted(sum(it.kept.rows[1] - it.kept.rows[0] for it in pictures), False, arguments.quiet)
        try:
            return {
                it.frame.number: (rendering.target_of(it.frame, arguments.output, len(pictures)), picture.from_ppm(it.kept.whole(), name))
                for it in drawing.draw(pictures, told)
            }
        finally:
            told.close()


def _layer(name: str, drawn: Mapping[str, picture.Picture], data: bytes, form: str) -> Layer:
    """A pass as it is written."""
    levels = drawn[name]
    if name == "alpha":
        return Layer("", _with_alpha(drawn["colour"], levels, passing.gamma(data), form == ".png"))
    if name == "depth":
        return Layer(name, 65535 - levels[:, :, :1])
    return Layer(name, levels)


def _with_alpha(colour: picture.Picture, coverage: picture.Picture, gamma: float, straight: bool) -> picture.Picture:
    """A picture with its coverage as alpha. PNG takes colours that aren't multiplied by alpha, and to the power that the scene's
    `Exposure` gives; EXR and TIFF take them as they were summed.
    """
    alpha = np.round(coverage.mean(axis=2, keepdims=True)).astype(np.uint16)
    if not straight:
        return np.concatenate([colour, alpha], axis=2)
    parts = colour / np.maximum(alpha, 1)
    bright = np.minimum(parts, 1.0) ** (1.0 / gamma)
    return np.concatenate([np.round(bright * 65535).astype(np.uint16), alpha], axis=2)


def _write(target: str, layers: Sequence[Layer]) -> None:
    """Writes the passes of one frame: as layers of one EXR, else each as a file of its own."""
    if places.ending(target) == ".exr":
        picture.write_layers(target, {it.name: it.levels for it in layers})
        return
    for it in layers:
        path = Path(target)
        picture.write(path if not it.name else path.with_name(f"{path.stem}.{it.name}{path.suffix}"), it.levels)

