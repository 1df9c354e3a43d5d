"""`check`: the faults of a scene, its shaders and textures, each at its file, line and column."""
from __future__ import annotations

import argparse
import json
import sys
from collections.abc import Iterator
from dataclasses import asdict, replace
from pathlib import Path

from reyes import checking, explain, files, program, rib, scene, shader
from reyes.checking import Fault, Texts
from reyes.rendering import scene_of

MOST = 20  # faults that are told of one scene
# What may be taken out of a scene without another fault coming of it.
APART = (
    "Patch PatchMesh Polygon PointsPolygons Sphere Cylinder Cone Disk Color Opacity ShadingRate ShadingInterpolation Sides Orientation "
    "Attribute Format PixelSamples PixelFilter Exposure Quantize Display CropWindow ScreenWindow Clipping Projection Shutter "
    "Translate Rotate Scale Transform ConcatTransform Surface Displacement Atmosphere"
).split()


def add_arguments(parser: argparse.ArgumentParser) -> None:
    parser.description = (
        "Tells the faults of a scene, its shaders and textures as file:line:column: code: sentence, with the line and a mark below the token. "
        "The first is the program's answer; further ones are what it answers where those before are taken out."
    )
    parser.epilog = "example:\n  python3 -m reyes check examples/broken.rib\n  python3 -m reyes check --json tea.rib"
    parser.add_argument("scene", metavar="SCENE", help="the scene's file, or - for standard input")
    parser.add_argument("--json", action="store_true", help="a list of objects, for editors: file, line, column, length, code, sentence, status, near")
    parser.add_argument("-I", "--search", action="append", default=[], metavar="FOLDER", help="look for shaders and textures here too")


def main(arguments: argparse.Namespace) -> int:
    data, name, place = scene_of(arguments.scene)
    found = list(faults(data, name, place, arguments.search))
    if arguments.json:
        print(json.dumps([asdict(it) for it in found], indent=1))
    else:
        show(found, data, name)
    return found[0].status if found else 0


def faults(data: bytes, name: str, place: Path | None, search: list[str]) -> Iterator[Fault]:
    """The faults of a scene, the program's answer first."""
    texts = Texts(data, name, files.gather(scene.read(data), files.folders(place, search)), program.ready(), {})
    for _ in range(MOST):
        fault = checking.first(texts)
        if fault is None:
            return
        yield fault
        if fault.code[0] == "L":
            yield from _further_bytes(texts, fault)
            return
        following = _without(texts, fault)
        if following is None:
            return
        texts = following


def show(found: list[Fault], data: bytes, name: str) -> None:
    """Prints faults, each with its line and a mark below the token."""
    from rich.console import Console
    from rich.text import Text

    out = Console(highlight=False, soft_wrap=True)
    for it in found:
        out.print(Text(str(it)))
        lines = data.split(b"\n") if it.file == name else _lines_of(it.file)
        if it.column and it.line <= len(lines):
            text, mark = marked(lines[it.line - 1].rstrip(b"\r"), it.column - 1, it.length)
            out.print(Text(f"  {text}"))
            out.print(Text(f"  {mark}", style="bold red"))
    if not found:
        print(f"{name}: no fault", file=sys.stderr)


def marked(line: bytes, start: int, length: int) -> tuple[str, str]:
    """A line as it is shown, and what marks so many of its bytes from one on below it: a letter of several bytes is one."""
    before, held, text = (it.decode("utf-8", "replace") for it in (line[:start], line[start : start + length], line))
    seen = "".join(it if it == "\t" or it.isprintable() and it != "\ufffd" else "?" for it in text)
    return seen, "".join("\t" if it == "\t" else " " for it in before) + "^" * max(1, len(held))


def _lines_of(file: str) -> list[bytes]:
    try:
        return Path(file).read_bytes().split(b"\n")
    except OSError:
        return []


def _further_bytes(texts: Texts, fault: Fault) -> Iterator[Fault]:
    """The faults of the text after the first one: they need no program. Of bytes side by side, such as those of one letter, the first."""
    count, end = 1, -1
    for token in rib.tokens(texts.data):
        if token.kind != "bad":
            continue
        beside, end = token.value == "L1" and token.start == end, token.end
        if not beside and (token.line, token.column) > (fault.line, fault.column) and count < MOST:
            count += 1
            code = str(token.value)
            length = max(1, len(token.text.partition("\n")[0]))
            yield Fault(texts.name, token.line, token.column, length, code, explain.sentence(code, "scene.rib"), 3)


def _without(texts: Texts, fault: Fault) -> Texts | None:
    """The texts without what has the fault, or None where more faults might come of that than there are."""
    if fault.file != texts.name:
        return _without_shader(texts, fault)
    for request in rib.requests(texts.data):
        if request.line <= fault.line and fault.column and _holds(texts.data, request, fault):
            if request.name not in APART and fault.code != "S1":
                return None
            body = texts.data[request.start : request.end]
            blank = bytes(byte if byte in b"\n\r\t" else 32 for byte in body)
            return replace(texts, data=texts.data[: request.start] + blank + texts.data[request.end :])
    return None


def _holds(data: bytes, request: rib.Request, fault: Fault) -> bool:
    """Whether the fault's place lies in a request."""
    lines = data[request.start : request.end].split(b"\n")
    last = (request.line + len(lines) - 1, (request.column if len(lines) == 1 else 1) + len(lines[-1]))
    return (request.line, request.column) <= (fault.line, fault.column) < last


def _without_shader(texts: Texts, fault: Fault) -> Texts | None:
    """The texts with a shader in the faulty one's place that declares the same and does nothing."""
    for name, it in texts.files.items():
        if checking.shown(it.path) == fault.file and name.endswith(".sl") and name not in texts.replaced:
            data = texts.shader(name)
            found = shader.declared(data)
            if found is None:
                return None
            begin = max((it.end for it in found.functions), default=0)
            return replace(texts, replaced={**texts.replaced, name: data[begin : found.body[0]] + b"{ }"})
    return None
