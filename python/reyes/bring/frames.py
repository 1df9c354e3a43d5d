"""The order of requests: options that stand in a world go before it, and frames that draw depths alone are left out."""
from __future__ import annotations

from collections.abc import Sequence

from .changes import LEFT, SAME
from .text import Request
from .work import Work

OPTIONS = frozenset(("Format", "FrameAspectRatio", "ScreenWindow", "CropWindow", "Clipping", "Projection", "Shutter", "PixelSamples", "PixelFilter",
                     "Exposure", "Quantize", "Display", "DepthOfField", "Imager"))


def draws_depths(row: Sequence[Request]) -> str | None:
    """The mode of a frame's picture where it has no colours."""
    modes = [it.word(2) or "" for it in row if it.name == "Display" and not (it.word(0) or "").startswith("+")]
    return modes[-1] if modes and "rgb" not in modes[-1] and modes[-1] in ("z", "a", "az", "za", "deepopacity") else None


def without_depths(work: Work, row: Sequence[Request]) -> list[Request]:
    """The requests without frames whose picture is one of depths."""
    found: list[Request] = []
    at = 0
    while at < len(row):
        if row[at].name != "FrameBegin":
            found.append(row[at])
            at += 1
            continue
        end = next((k for k in range(at, len(row)) if row[k].name == "FrameEnd"), len(row) - 1)
        mode = draws_depths(row[at:end + 1])
        if mode is None or not work.tell(LEFT, row[at], f"a frame that draws no colours (`{mode}`) left out"):
            found += row[at:end + 1]
        at = end + 1
    return found


def options_first(work: Work, row: Sequence[Request]) -> list[Request]:
    """The requests with the options of each world before it."""
    found: list[Request] = []
    world: list[Request] | None = None
    for it in row:
        if it.name == "WorldBegin" and world is None:
            world = [it]
        elif world is None:
            found.append(it)
        elif it.name in OPTIONS and not (it.name == "Imager" and not it.args):
            work.tell(SAME, it, f"`{it.name}` moved before its world")
            moved = Request(it.name, it.args, it.file, it.line)
            moved.odd = it.odd
            found.append(moved)
        else:
            world.append(it)
            if it.name == "WorldEnd":
                found += world
                world = None
    return found + (world or [])
