"""All passes in the order in which a request goes through them, and the way of a whole scene through them."""
from __future__ import annotations

from collections.abc import Iterator, Sequence

import numpy as np

from . import curves, frames, heights, motion, nurbs, omissions, options, polygons, quadrics, shading, subdivision, transforms, types
from .changes import LEFT, NEVER, SAME
from .state import spaces_of
from .structure import expanded
from .text import Request, after, quoted
from .work import Pass, Passes, Work

TROUBLES = (IndexError, KeyError, TypeError, ValueError, ZeroDivisionError, OverflowError, np.linalg.LinAlgError)


def merged(*tables: Passes) -> Passes:
    found: dict[str, tuple[Pass, ...]] = {}
    for table in tables:
        for name, row in table.items():
            found[name] = (*found.get(name, ()), *row)
    return found


# What a request becomes in one stage goes on to the next, under its new name.
STAGES: Sequence[Passes] = (
    {name: (omissions.shown,) for name in omissions.PRIMITIVES},
    {name: (transforms.bare,) for name in (*transforms.BARE, *transforms.WORDS, "Transform", "ConcatTransform", "MotionBegin")},
    merged(transforms.PASSES, options.PASSES, omissions.PASSES, shading.PASSES),
    merged(quadrics.PASSES, polygons.PASSES, nurbs.PASSES, subdivision.PASSES, curves.PASSES),
    {name: (heights.points, transforms.mesh) for name in ("Patch", "PatchMesh")},
    {name: (transforms.with_corners,) for name in types.LISTS},
    polygons.NORMALS,
    types.PASSES,
)


def words(work: Work, request: Request) -> list[Request] | None:
    """A request whose strings and numbers the profile can read."""
    texts = [it for at in range(len(request.args)) for it in request.strings(at)]
    strange = any(not (" " <= it <= "~" or it in "\n\t") for text in texts for it in text)
    if not request.odd and not strange or request.text is None:
        return None
    lost = [it for it in request.odd if not it.startswith("\\")]
    if lost and not work.tell(LEFT, request, f"what is neither a number nor a string left out: {' '.join(map(quoted, lost[:3]))}"):
        return None
    if strange or len(lost) < len(request.odd):
        work.tell(SAME, request, "strings in the profile's characters and escapes")
    return [request.made(request.name, *request.args)]


def lowered(work: Work, request: Request) -> list[Request]:
    """What a request becomes: it itself where nothing changes."""
    if not request.name:
        return [request]
    if request.name not in omissions.KNOWN and not any(request.name in it for it in STAGES):
        return through(work, omissions.left, [request])
    row = through(work, words, [request])
    for stage in STAGES:
        if any(it.name in stage for it in row):
            row = [it for old in row for it in staged(work, stage, old)]
    return row


def staged(work: Work, stage: Passes, request: Request) -> list[Request]:
    row = [request]
    for one in stage.get(request.name, ()):
        row = through(work, one, row)
    return row


def through(work: Work, one: Pass, row: Sequence[Request]) -> list[Request]:
    """The requests after one pass. What a pass can't understand stays as it is, and can't be brought."""
    found: list[Request] = []
    for request in row:
        try:
            made = one(work, request)
        except TROUBLES:
            work.tell(NEVER, request, f"`{request.name}` has arguments that can't be understood")
            made = None
        found += [request] if made is None else made
    return found


def whole(work: Work, row: Sequence[Request]) -> list[Request]:
    """A scene's requests in the profile's words."""
    row = frames.options_first(work, frames.without_depths(work, expanded(row, work.changes, work.folders)))
    work.numbers = {it.numbers(1)[0] for it in row if it.name in ("LightSource", "AreaLightSource") and it.numbers(1)}
    work.shelf.spaces = spaces_of(row)
    work.textures.pictures = frozenset(name for it in row if it.name == "Display" if (name := (it.word(0) or "").split("/")[-1]))
    work.rows = row
    found: list[Request] = []
    for group in work.telling.through("bringing in", blocks(work, row), len(row)):
        made = motion.block(work, group, lambda it: lowered(work, it)) if len(group) > 1 else lowered(work, group[0])
        for it in made:
            work.state.follow(it)
        found += made if made == group else after(made, group[-1])
    return found


def blocks(work: Work, row: Sequence[Request]) -> Iterator[list[Request]]:
    """The requests one by one, motion blocks as a whole. `work.at` is the place of the one after."""
    at = 0
    while at < len(row):
        end = at
        if row[at].name == "MotionBegin":
            end = next((k for k in range(at, min(len(row), at + 4096)) if row[k].name == "MotionEnd"), at)
        work.at = end + 1
        yield list(row[at:end + 1])
        at = end + 1
