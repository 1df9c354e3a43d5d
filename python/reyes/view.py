"""`view`: opens pictures in the desktop's viewer, or turns them into another form (PPM to PNG, say)."""
from __future__ import annotations

import argparse
import shutil
import subprocess
import tempfile
from pathlib import Path

from reyes import picture, places
from reyes.errors import USAGE, Trouble


def add_arguments(parser: argparse.ArgumentParser) -> None:
    parser.description = "Opens pictures in the desktop's viewer; with -o, writes a picture in the form of another ending instead, as PPM to PNG."
    parser.epilog = "example:\n  python3 -m reyes view tea.ppm\n  python3 -m reyes view first.ppm --side 8 -o first.png"
    parser.add_argument("pictures", nargs="+", metavar="PICTURE", help="a picture: PPM or PNG, and what OpenImageIO reads")
    parser.add_argument("-o", "--output", metavar="OUT", help="write it here, in the form of the ending; .png alone writes each beside its picture")
    parser.add_argument("--side", type=_side, default=1, metavar="N", help="each pixel as a square of N pixels")


def main(arguments: argparse.Namespace) -> int:
    output = arguments.output
    if output is not None and len(arguments.pictures) > 1 and output not in places.ENDINGS:
        raise Trouble(f"-o {output}: {len(arguments.pictures)} pictures can't go to one file; -o .png writes each beside its picture", USAGE)
    for path in arguments.pictures:
        levels = picture.larger(picture.read(path), arguments.side)
        if output is not None:
            picture.write(Path(path).with_suffix(output) if output in places.ENDINGS else output, levels)
        else:
            show(levels, Path(path).stem)
    return 0


def show(levels: picture.Picture, name: str) -> None:
    """Opens a picture in the desktop's viewer as a PNG in a folder for temporary files; where there is no viewer, prints its path."""
    target = Path(tempfile.mkdtemp(prefix="reyes-view-")) / f"{name}.png"
    picture.write(target, levels)
    viewer = shutil.which("xdg-open") or shutil.which("open")
    if viewer is None:
        print(target)
    elif subprocess.run([viewer, target], stdin=subprocess.DEVNULL, check=False).returncode != 0:
        raise Trouble(f"{viewer}: it couldn't open {target}")


def _side(word: str) -> int:
    if word.isdecimal() and 1 <= int(word) <= 64:
        return int(word)
    raise argparse.ArgumentTypeError(f"{word!r} is no side from 1 to 64")
