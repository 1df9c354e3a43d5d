"""`why`: explains a pixel of a picture on a page."""
from __future__ import annotations

import argparse

from reyes import places
from reyes.errors import USAGE, Trouble
from reyes.rendering import scene_of
from reyes.why import serving
from reyes.why.explaining import Explained
from reyes.why.page import page

EXAMPLE = """example:
  python3 -m reyes why examples/tea.rib 412 233 -o why.html
  python3 -m reyes why examples/tea.rib --serve

X and Y count pixels of the frame from the left and from above, from 0. The page is one file: the picture with the pixel marked, the pixel
enlarged with its samples and their micropolygons, what each sample sees, the sum to the byte, the shaders' lines and the grids. The picture
is drawn by the renderer, and the account comes from the program `why`, which the variable WHY may name. docs/WHY.md reads four pixels."""


def add_arguments(parser: argparse.ArgumentParser) -> None:
    parser.description = "Explains a pixel of a picture on a page of HTML: everything that made its bytes, each number as the definitions give it."
    parser.epilog = EXAMPLE
    parser.add_argument("scene", metavar="SCENE", help="the scene's file, or - for standard input")
    parser.add_argument("x", nargs="?", type=_place, metavar="X", help="the pixel's place from the left")
    parser.add_argument("y", nargs="?", type=_place, metavar="Y", help="the pixel's place from above")
    parser.add_argument("--frame", type=_place, default=0, metavar="F", help="the frame, counted from 0 (0)")
    parser.add_argument("-o", "--output", default="why.html", metavar="OUT", help="where the page goes (why.html)")
    parser.add_argument("--serve", action="store_true", help="show pages at an address of this machine alone: a click on the picture explains that pixel")
    parser.add_argument("--port", type=_port, default=0, metavar="N", help="the port of that address (any that is free)")
    parser.add_argument("-I", "--search", action="append", default=[], metavar="FOLDER", help="look for shaders and textures here too, after the scene's folder")
    parser.add_argument("-q", "--quiet", action="store_true", help="no bar while the picture is drawn")


def main(arguments: argparse.Namespace) -> int:
    if arguments.y is None and (arguments.x is not None or not arguments.serve):
        raise Trouble("why SCENE X Y: the pixel's place from the left and from above is needed", USAGE)
    if not arguments.serve:
        places.writable(arguments.output)
    data, name, place = scene_of(arguments.scene)
    explained = Explained(data, name, place, arguments.frame, tuple(arguments.search), arguments.quiet)
    if arguments.serve:
        return serving.serve(explained, None if arguments.y is None else (arguments.x, arguments.y), arguments.port)
    account = explained.account(arguments.x, arguments.y)
    text = page(account, explained.film, explained.things(account))
    places.replace(arguments.output, text.encode())
    return 0


def _place(word: str) -> int:
    if word.isascii() and word.isdecimal() and len(word) <= 4:
        return int(word)
    raise argparse.ArgumentTypeError(f"{word!r} is no whole number from 0 to 9999")


def _port(word: str) -> int:
    if word.isascii() and word.isdecimal() and len(word) <= 5 and int(word) <= 65535:
        return int(word)
    raise argparse.ArgumentTypeError(f"{word!r} is no port from 0 to 65535")
