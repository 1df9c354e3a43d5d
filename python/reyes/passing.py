"""Scenes changed for passes: what each pass shows, as the last lines of a surface, and the requests that it wants otherwise.

Nothing of the program changes. A surface of the scene's own keeps its text, since its opacity may be its own (a leaf cut out of a square),
and ends with other lines; those of the stock, whose opacity is Os, become one plain surface. Volumes are left out.
"""
from __future__ import annotations

from collections.abc import Iterator, Sequence
from dataclasses import dataclass
from pathlib import Path

from reyes import files, rib, shader
from reyes.errors import Trouble, file_trouble

# What the command line says of each.
PASSES = {
    "alpha": "the picture with its coverage as alpha, exact",
    "depth": "how far away what shows is",
    "normals": "the normals of what shows, in camera space",
    "uv": "the parameters u and v of what shows",
    "ids": "a colour for each primitive",
    "cells": "a colour for each micropolygon",
}
PLAIN = "pass_plain"
COLOUR = "pass_colour"
# Where anything of a surface shows, all of it does, so that nothing is mixed.
SHOWN = "Oi = comp(Oi, 0) + comp(Oi, 1) + comp(Oi, 2) > 0 ? 1 : 0; Ci = Oi * "
ENDINGS = {
    "alpha": "Ci = Oi;",
    "depth": SHOWN + "(1 - depth(P));",
    "normals": SHOWN + "color (0.5 + 0.5 * xcomp(normalize(N)), 0.5 + 0.5 * ycomp(normalize(N)), 0.5 + 0.5 * zcomp(normalize(N)));",
    "uv": SHOWN + "color (u, v, 0);",
    "ids": SHOWN + COLOUR + ";",
    "cells": "float pass_column = floor(mod(u, 61 * du) / du + 0.5); float pass_line = floor(mod(v, 67 * dv) / dv + 0.5); "
    + "float pass_hash = mod(sin(pass_column * 12.9898 + pass_line * 78.233) * 437.585, 1); "
    + SHOWN + "color (pass_hash, mod(pass_hash * 7, 1), mod(pass_hash * 31, 1));",
}
PRIMITIVES = ("Patch", "PatchMesh", "NuPatch", "Polygon", "PointsPolygons", "Sphere", "Cylinder", "Cone", "Disk")
GOLDEN = 0.6180339887  # turns of the colour wheel from one primitive to the next: neighbours differ
SIXTEEN = b'Quantize "rgb" 65535 0 65535 0 '
ONE_SAMPLE = b'PixelSamples 1 1 PixelFilter "box" 1 1 '


@dataclass(frozen=True)
class Changed:
    """A scene's text and the texts of its shaders, by their names, as a pass wants them."""

    data: bytes
    shaders: dict[str, bytes]


def changed(data: bytes, name: str, place: Path | None, search: Sequence[str], wanted: str) -> Changed:
    """The scene that draws a pass (one of PASSES, or "colour" for the picture itself in sixteen bits, before its power). Lines stay where
    they are. Raises Trouble for a shader that can't be read, or whose text is none.
    """
    requests = list(rib.requests(data))
    if wanted == "colour":
        return Changed(_with(data, SIXTEEN, {it.start: (_end(it), _exposure(it)) for it in requests if it.name in ("Quantize", "Exposure")}), {})
    own = _own_surfaces(requests, place, search)
    shaders = {it: with_ending(text, wanted, it) for it, text in own.items()}
    shaders[PLAIN] = with_ending(f"surface {PLAIN}() {{ Oi = Os; }}".encode(), wanted, PLAIN)
    other: dict[int, tuple[int, bytes]] = {}
    colours = _colours(requests)
    for it in requests:
        text = _replaced(it, wanted, own)
        if text is not None:
            other[it.start] = (_end(it), text)
        elif wanted == "ids" and it.name in PRIMITIVES:
            other[_end(it)] = (_end(it), next(colours))
    head = SIXTEEN + (b"" if wanted == "alpha" else ONE_SAMPLE) + f'Surface "{PLAIN}" '.encode()
    return Changed(_with(data, head, other), shaders)


def gamma(data: bytes) -> float:
    """The power by which the scene's last `Exposure` before its first world divides, 1 where it has none."""
    found = 1.0
    for it in rib.requests(data):
        if it.name == "WorldBegin":
            break
        numbers = [token.value for token in it.arguments if token.kind == "number"]
        if it.name == "Exposure" and len(numbers) == 2:
            found = float(numbers[1])
    return found


def with_ending(text: bytes, wanted: str, name: str) -> bytes:
    """A surface's text with the last lines of a pass. Raises Trouble where it is no surface's."""
    found = shader.declared(text)
    if found is None or found.kind != "surface":
        raise Trouble(f"{name}.sl: no surface's text, so its passes can't be drawn (`python3 -m reyes check` says more)")
    close = found.body[1] - 1
    ended = text[:close] + f"; {ENDINGS[wanted]} ".encode() + text[close:]
    if wanted != "ids":
        return ended
    tokens = [it for it in shader.tokens(text) if it.end <= found.body[0]]
    at = next(b.end for a, b, c in zip(tokens, tokens[2:], tokens[1:]) if a.text == "surface" and c.text == found.name and b.text == "(")
    return ended[:at] + f"uniform color {COLOUR} = 0; ".encode() + ended[at:]


def _own_surfaces(requests: Sequence[rib.Request], place: Path | None, search: Sequence[str]) -> dict[str, bytes]:
    """The texts of the surfaces that are the scene's own, by their names."""
    folders = files.folders(place, search)
    own: dict[str, bytes] = {}
    for it in requests:
        name = _name(it)
        if it.name != "Surface" or not name or name in own:
            continue
        path = next((folder / f"{name}.sl" for folder in folders if (folder / f"{name}.sl").is_file()), None)
        if path is not None:
            try:
                own[name] = path.read_bytes()
            except OSError as fault:
                raise file_trouble(path, fault) from fault
    return own


def _replaced(it: rib.Request, wanted: str, own: dict[str, bytes]) -> bytes | None:
    """What stands in a request's place, or None where it stays."""
    gone = ["Atmosphere", "Quantize", "Exposure", "Imager"]
    if wanted != "alpha":
        gone += ["PixelSamples", "PixelFilter"]
    if wanted in ("ids", "cells"):
        gone += ["ShadingInterpolation"]
    if it.name in gone:
        return b""
    if it.name == "Surface" and _name(it) not in own:
        return f'Surface "{PLAIN}"'.encode()
    return None


def _colours(requests: Sequence[rib.Request]) -> Iterator[bytes]:
    """For each primitive a colour as a parameter; the two primitives of one motion block have the same."""
    number, moving = 0, False
    for it in requests:
        if it.name in ("MotionBegin", "MotionEnd"):
            moving = it.name == "MotionBegin"
            number += 1
        if it.name in PRIMITIVES:
            number += not moving
            hue = number * GOLDEN % 1.0
            parts = (0.15 + 0.85 * abs((hue * 6 + shift) % 6 - 3) / 3 for shift in (0, 2, 4))
            yield f' "constant color {COLOUR}" [{" ".join(f"{part:.4f}" for part in parts)}]'.encode()


def _exposure(it: rib.Request) -> bytes:
    """An `Exposure` with its gain alone, and nothing for a `Quantize`."""
    numbers = [token.text for token in it.arguments if token.kind == "number"]
    return f"Exposure {numbers[0]} 1".encode() if it.name == "Exposure" and len(numbers) == 2 else b""


def _with(data: bytes, head: bytes, other: dict[int, tuple[int, bytes]]) -> bytes:
    """The text after a head, with parts of it replaced by others of as many lines."""
    parts, at = [head], 0
    for begin, (end, text) in sorted(other.items()):
        parts += [data[at:begin], text, b"\n" * (data.count(b"\n", begin, end) - text.count(b"\n"))]
        at = end
    return b"".join([*parts, data[at:]])


def _end(it: rib.Request) -> int:
    """Where a request's last token ends."""
    tokens = it.arguments
    return tokens[-1].end if tokens else it.start + len(it.name)


def _name(it: rib.Request) -> str:
    """The name that a request of a shader gives."""
    tokens = it.arguments
    return str(tokens[0].value) if tokens and tokens[0].kind == "string" else ""
