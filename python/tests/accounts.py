"""Accounts of pixels made by hand, as the program `why` writes them, by the formulas of docs/TOUR.md."""
from __future__ import annotations

import json
from collections.abc import Sequence
from typing import Any

ONE = 65536
Triple = Sequence[int]


def number(raw: int, over: int = ONE) -> dict[str, Any]:
    return {"raw": raw, "value": str(raw / over)}


def large(raw: int, over: int) -> dict[str, Any]:
    return {"raw": str(raw), "value": str(raw / over)}


def triple(it: Triple) -> list[dict[str, Any]]:
    return [number(raw) for raw in it]


def spot(x: int, y: int) -> dict[str, Any]:
    return {"x": number(x, 256), "y": number(y, 256)}


def corner(place: tuple[int, int], depth: int, colour: Triple, opacity: Triple, u: int, v: int) -> dict[str, Any]:
    """A corner of a micropolygon that doesn't move."""
    return {
        "P": triple((place[0] - 256, 256 - place[1], depth)), "Ci": triple(colour), "Oi": triple(opacity), "u": number(u), "v": number(v),
        "raster": spot(*place), "depth": number(depth), "colour": triple(colour), "opacity": triple(opacity),
    }


def square(side: tuple[int, int, int, int], depth: int, colours: Sequence[Triple], opacity: Triple) -> list[dict[str, Any]]:
    """The corners of a micropolygon that is a rectangle on the raster: left, top, right, bottom."""
    left, top, right, bottom = side
    places = ((left, top), (right, top), (right, bottom), (left, bottom))
    params = ((0, 0), (4096, 0), (4096, 4096), (0, 4096))
    return [corner(place, depth, colour, opacity, *at) for place, colour, at in zip(places, colours, params)]


def seen(line: int, surface: tuple[str, int], depth: int, colour: Triple, opacity: Triple, corners: Any, smooth: bool = False) -> dict[str, Any]:
    """A fragment, without its composite."""
    return {
        "depth": number(depth), "colour": triple(colour), "opacity": triple(opacity),
        "primitive": {
            "number": line, "line": line, "mesh": {"column": 0, "columns": 1, "row": 0, "rows": 1},
            "surface": {"name": surface[0], "line": surface[1]}, "displacement": None, "atmosphere": None,
            "rate": number(ONE), "bound": number(0), "one_sided": False, "flip": False, "smooth": smooth, "moves": False,
        },
        "piece": {"u": {"part": 1, "of": 4}, "v": {"part": 0, "of": 2}},
        "cell": {"row": 2, "column": 5, "rows": 16, "columns": 8},
        "corners": corners,
    }


def sample(x: int, y: int, weight: int, fragments: list[dict[str, Any]]) -> dict[str, Any]:
    """A sample with the composite of its fragments."""
    colour, passed = [0, 0, 0], [ONE, ONE, ONE]
    for it in fragments:
        own, opacity = ([part["raw"] for part in it[key]] for key in ("colour", "opacity"))
        colour = [c + p * o // ONE for c, p, o in zip(colour, passed, own)]
        passed = [p * (ONE - o) // ONE for p, o in zip(passed, opacity)]
        it["composite"] = {"colour": triple(colour), "passed": triple(passed)}
    return {"place": spot(x, y), "time": number(3), "weight": number(weight), "colour": triple(colour), "fragments": fragments}


def account(samples: list[dict[str, Any]], x: int = 1, y: int = 1, size: tuple[int, int] = (4, 3), one: int = 255, gain: int = ONE) -> dict[str, Any]:
    """The account of a pixel of a frame with two by two samples a pixel under a box filter of one pixel, of its samples."""
    weights = [it["weight"]["raw"] for it in samples]
    sums = [sum(w * it["colour"][k]["raw"] for w, it in zip(weights, samples)) for k in range(3)]
    mean = [it // sum(weights) if weights else 0 for it in sums]
    bright = [it * gain // ONE for it in mean]
    levels = [min(one, (2 * one * it + ONE) // (2 * ONE)) for it in bright]
    return {
        "scene": "/dev/stdin",
        "frame": {
            "number": 0, "file": "out.ppm", "width": size[0], "height": size[1], "crop": {"left": 0, "top": 0, "right": size[0], "bottom": size[1]},
            "samples": {"across": 2, "down": 2}, "filter": {"name": "box", "across": number(256, 256), "down": number(256, 256)},
            "gain": number(gain), "gamma": number(ONE), "one": one, "min": 0, "max": one,
        },
        "pixel": {"x": x, "y": y},
        "samples": samples,
        "sums": {"weight": large(sum(weights), ONE), "colour": [large(it, ONE * ONE) for it in sums]},
        "mean": triple(mean), "bright": triple(bright), "exposed": triple(bright), "rounded": [(2 * one * it + ONE) // (2 * ONE) for it in bright],
        "levels": levels, "bytes": levels if one < 256 else [part for it in levels for part in (it // 256, it % 256)],
    }


RED, GREEN, HALF, FULL = (32768, 0, 0), (0, ONE, 0), (32768, 32768, 32768), (ONE, ONE, ONE)


def glass_before_green(x: int, y: int) -> list[dict[str, Any]]:
    """Half-transparent red before opaque green, at a place."""
    glass = seen(7, ("glass", 6), 2 * ONE, RED, HALF, square((200, 200, 600, 600), 2 * ONE, [RED] * 4, HALF))
    green = seen(9, ("constant", 8), 3 * ONE, GREEN, FULL, square((256, 256, 512, 512), 3 * ONE, [GREEN] * 4, FULL))
    return [glass, green]


def four(one: int = 255, gain: int = ONE) -> dict[str, Any]:
    """A pixel with four samples: two of them see glass before green, one the green alone, and one nothing."""
    places = ((400, 310), (300, 300), (290, 420), (450, 440))
    stacks = [glass_before_green(*places[0]), glass_before_green(*places[1]), glass_before_green(*places[2])[1:], []]
    return account([sample(*place, ONE, stack) for place, stack in zip(places, stacks)], one=one, gain=gain)


def data(it: dict[str, Any]) -> bytes:
    return json.dumps(it).encode()
