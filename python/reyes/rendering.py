"""`render`: draws the frames of a scene on all processors, and writes their pictures."""
from __future__ import annotations

import argparse
import re
import sys
from collections.abc import Callable, Iterator
from concurrent.futures import Executor
from pathlib import Path

from reyes import places, plain, progress, scene, workers
from reyes.drawing import Drawing, Picture, Settings
from reyes.errors import USAGE, Trouble, file_trouble

EXAMPLE = """example:
  python3 -m reyes render examples/tea.rib -o tea.png
  python3 -m reyes render film.rib --frames 3-9 -o 'film.####.png' --size 50%

A picture's form is that of its ending: .ppm, .png, .tif, .tiff, .exr or .jpg; another name gets a PPM. While it is drawn, its bands are kept
in the folder PICTURE.bands, with the picture so far as so_far.png; a run that is broken off goes on with the bands that are missing."""

NO_FRAME = "no picture comes of it, since it has no frame (WorldBegin .. WorldEnd)"


def add_arguments(parser: argparse.ArgumentParser) -> None:
    parser.description = "Draws the frames of a scene, on all processors. The bytes are those of `reyes render`."
    parser.epilog = EXAMPLE
    parser.add_argument("scene", nargs="+", metavar="SCENE", help="a scene's file, or - for standard input; of several one after the other is drawn")
    parser.add_argument("-o", "--output", metavar="OUT", help="where the picture goes, in place of the Display's name; # stands for digits of the frame's number; a folder takes the Displays' names; .png alone changes their ending")
    parser.add_argument("-q", "--quiet", action="store_true", help="no bar, and no line but for faults")
    parser.add_argument("--no-bands", action="store_true", help="keep no bands: a run that is broken off begins anew")
    workers.add_arguments(parser)
    add_changes(parser)


def add_changes(parser: argparse.ArgumentParser) -> None:
    """The words that change what is drawn, and where its files are looked for."""
    parser.add_argument("--frames", type=_numbers, metavar="3-9,12", help="draw these frames alone, by the numbers of their FrameBegin")
    parser.add_argument("--size", type=_size, metavar="480x270", help="another size in pixels, or a part of the scene's: 50%%")
    parser.add_argument("--samples", type=_samples, metavar="4x4", help="another number of samples for a pixel")
    parser.add_argument("--rate", type=_number, metavar="R", help="another shading rate, for all objects")
    parser.add_argument("--crop", type=_number, nargs=4, metavar=("X0", "X1", "Y0", "Y1"), help="draw a part of the picture alone, by numbers from 0 to 1")
    parser.add_argument("-I", "--search", action="append", default=[], metavar="FOLDER", help="look for shaders and textures here too, after the scene's folder")
    parser.add_argument("--bucket", type=int, metavar="B", help="the side of a bucket in pixels, 4 to 64; changes no byte, and is chosen by the memory that is there")
    parser.add_argument("--grid-points", type=int, metavar="G", help="points of shaded grids that each process keeps, 289 to 1,000,000; chosen likewise")


def main(arguments: argparse.Namespace) -> int:
    output = arguments.output
    if len(arguments.scene) > 1 and output and not (output in places.ENDINGS or output.endswith("/") or Path(output).is_dir()):
        raise Trouble(f"-o {output}: {len(arguments.scene)} scenes can't go to one file; a folder or an ending such as .png can be named", USAGE)
    with workers.chosen(arguments) as (executor, jobs):
        for word in arguments.scene:
            draw(word, arguments, executor, jobs)
    return 0


def draw(word: str, arguments: argparse.Namespace, executor: Executor | None, jobs: int) -> None:
    """Draws one scene, and writes its pictures. Raises Trouble."""
    data, name, place = scene_of(word)
    drawing = Drawing(data, name, place, settings(arguments, executor, jobs))
    tell_if_empty(drawing, word)
    try:
        pictures = list(begun(drawing, arguments.output, not arguments.no_bands))
        targets = {id(it): target for it, target in pictures}
        if place is not None and any(Path(target).exists() and place.samefile(target) for target in targets.values()):
            raise Trouble(f"{word}: its picture would take the scene's own place", USAGE)
    except Trouble:
        drawing.accepted()  # its own fault is told first
        raise
    rows = sum(it.kept.rows[1] - it.kept.rows[0] for it, _ in pictures)
    told = progress.counted(rows, not arguments.no_bands, arguments.quiet)
    try:
        for whole in drawing.draw((it for it, _ in pictures), told):
            save(whole, targets[id(whole)])
            told.whole(targets[id(whole)])
    finally:
        told.close()


def tell_if_empty(drawing: Drawing, name: str) -> None:
    """Says of a scene without a frame that nothing is drawn."""
    if not drawing.frames:
        print(f"reyes: {name}: {NO_FRAME}", file=sys.stderr)


def settings(arguments: argparse.Namespace, executor: Executor | None, jobs: int) -> Settings:
    """The settings that the words of the command line ask for."""
    size, factor = arguments.size or (None, 1.0)
    crop = None
    if arguments.crop:
        x0, x1, y0, y1 = (scene.raw(repr(it)) for it in arguments.crop)
        crop = (x0, x1, y0, y1)
        if not (0 <= x0 < x1 <= scene.ONE and 0 <= y0 < y1 <= scene.ONE):
            raise Trouble("--crop X0 X1 Y0 Y1: numbers from 0 to 1, X0 below X1 and Y0 below Y1", USAGE)
    changes = scene.Changes(size, factor, arguments.samples, arguments.rate, crop)
    return Settings(changes, arguments.frames, jobs, workers.words(arguments), tuple(arguments.search), executor)


def scene_of(word: str) -> tuple[bytes, str, Path | None]:
    """A scene's bytes, what the user calls it, and its path. Raises Trouble where it can't be read."""
    if word == "-":
        return sys.stdin.buffer.read(), "standard input", None
    try:
        data = Path(word).read_bytes()
    except OSError as fault:
        raise file_trouble(word, fault) from fault
    if data.startswith(b"\x1f\x8b"):
        raise Trouble(f"{word}:1: L1: a gzip file; python3 -m reyes bring_in unpacks it", 3)
    return data, word, Path(word)


def begun(drawing: Drawing, output: str | None, keeps: bool) -> Iterator[tuple[Picture, str]]:
    """The pictures of a drawing and where each goes. Of several frames that go to one file the last one counts, as with `reyes render`."""
    targets = {target_of(frame, output, len(drawing.frames)): frame for frame in drawing.frames}
    if len(targets) < len(drawing.frames):
        drawing.accepted()
        print(f"reyes: {len(drawing.frames)} frames go to {len(targets)} files, and the last of each is kept; -o 'out.####.png' keeps all", file=sys.stderr)
    for target, frame in sorted(targets.items(), key=lambda it: it[1].place):
        places.writable(target)
        regular = not Path(target).exists() or Path(target).is_file()
        yield drawing.picture(frame, Path(f"{target}.bands") if keeps and regular else None), target


def target_of(frame: scene.Frame, output: str | None, frames: int) -> str:
    """Where a frame's picture goes."""
    display = frame.options.display
    if output is None:
        return display
    if "#" in output:
        return re.sub("#+", lambda found: f"{frame.number:0{len(found.group())}d}", output)
    if output in places.ENDINGS:
        return str(Path(display).with_suffix(output))
    if output.endswith("/") or Path(output).is_dir():
        return str(Path(output) / Path(display).name)
    if frames > 1:
        raise Trouble(f"-o {output}: {frames} frames can't go to one file; -o 'out.####.png' numbers them, and --frames chooses one", USAGE)
    return output


def save(whole: Picture, target: str) -> None:
    """Writes a whole picture by the ending of its name, and forgets its bands."""
    data = whole.kept.whole()
    ending = Path(target).suffix.lower()
    png = plain.png(data) if ending == ".png" else None
    if png is not None or ending not in places.ENDINGS[1:]:
        places.replace(target, data if png is None else png)
    else:
        from reyes import picture  # which loads NumPy

        picture.write(target, picture.from_ppm(data))
    whole.kept.forget()


def _numbers(word: str) -> Callable[[int], bool]:
    """Which numbers are meant by a word such as 3-9,12."""
    spans = []
    for part in word.split(","):
        found = re.fullmatch(r"([0-9]{1,9})(?:-([0-9]{1,9}))?", part.strip())
        if found is None:
            raise argparse.ArgumentTypeError(f"{word!r} is no list of frames such as 3-9,12")
        spans.append((int(found.group(1)), int(found.group(2) or found.group(1))))
    return lambda number: any(first <= number <= last for first, last in spans)


def _size(word: str) -> tuple[tuple[int, int] | None, float]:
    found = re.fullmatch(r"([0-9]{1,4})x([0-9]{1,4})", word)
    if found is not None and 1 <= int(found.group(1)) <= 4096 and 1 <= int(found.group(2)) <= 4096:
        return (int(found.group(1)), int(found.group(2))), 1.0
    found = re.fullmatch(r"([0-9]{1,4}(?:\.[0-9]{1,4})?)%", word)
    if found is not None and float(found.group(1)) > 0:
        return None, float(found.group(1)) / 100
    raise argparse.ArgumentTypeError(f"{word!r} is no size such as 480x270 (at most 4096 each way) or 50%")


def _samples(word: str) -> tuple[int, int]:
    found = re.fullmatch(r"([0-9]{1,2})(?:x([0-9]{1,2}))?", word)
    pair = (int(found.group(1)), int(found.group(2) or found.group(1))) if found else (0, 0)
    if not all(1 <= it <= 16 for it in pair):
        raise argparse.ArgumentTypeError(f"{word!r} is no number of samples such as 4 or 4x2, at most 16 each way")
    return pair


def _number(word: str) -> float:
    try:
        value = float(word)
    except ValueError:
        value = float("nan")
    if not -32768 < value < 32768:
        raise argparse.ArgumentTypeError(f"{word!r} is no number from -32768 to 32768")
    return value
