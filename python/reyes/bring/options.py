"""Options in the profile's words: pictures, filters, samples, the camera, and an imager's background."""
from __future__ import annotations

import math
import re

import numpy as np

from . import matrices, variables
from .changes import LEFT, NEAR, SAME
from .text import Argument, Request
from .work import Work

SCREENS = ("framebuffer", "it", "windowed", "x11", "window", "screen", "sgif", "idisplay", "piqsl", "fb", "houdini", "md", "ip", "memory")
NOT_PICTURES = re.compile(r"(.*\.(sl|rib))?$|scene\.rib$|CHANGES$", re.S)
LEAST = 1 / 65536
GREATEST = 32767.0
FAR = 16000.0


def display(work: Work, request: Request) -> list[Request] | None:
    """A `Display` as a file of colours in the folder of the scene, whose name is that of nothing else there."""
    name, driver, mode = request.word(0), request.word(1), request.word(2)
    if name is None or driver is None or mode is None:
        return None
    if name.startswith("+"):
        return None if mode in ("rgb", "rgba") or not work.tell(LEFT, request, f"a further picture ({mode}) left out") else []
    new_mode = mode
    if mode not in ("rgb", "rgba"):
        words = f"a picture of `{mode}` drawn as one of colours"
        if not work.tell(LEFT, request, words):
            return None
        new_mode = "rgba"
    new = re.split(r"[/\\]", name)[-1]
    if new != name:
        work.tell(SAME, request, "folders before names of pictures taken away")
    if driver in SCREENS and "." not in new:
        work.tell(SAME, request, "a `Display` on a screen turned into a file")
        new = (new or "picture") + ".ppm"
    if NOT_PICTURES.match(new):
        work.tell(SAME, request, "a picture with the name of a scene or a shader named otherwise")
        new += "picture.ppm" if not new else ".ppm"
    if (new, new_mode) == (name, mode):
        return None
    return [request.made("Display", new, driver, new_mode, *request.args[3:])]


def quantize(work: Work, request: Request) -> list[Request] | None:
    """Levels that the profile has: floats become sixteen bits."""
    n = request.numbers(1)
    if request.word(0) not in ("rgb", "rgba") or len(n) != 4:
        return None
    one, low, high = n[0], n[1], n[2]
    if one == 0:
        if not work.tell(NEAR, request, "a picture of floats drawn with sixteen bits"):
            return None
        return [request.made("Quantize", request.args[0], 65535.0, 0.0, 65535.0, n[3])]
    if one > 65535:
        if not work.tell(NEAR, request, "a picture of more than sixteen bits drawn with sixteen"):
            return None
        return [request.made("Quantize", request.args[0], 65535.0, 0.0, 65535.0, n[3])]
    held = [float(round(one)), float(round(min(max(low, 0), one))), float(round(min(max(high, 0), one)))]
    if held == [one, low, high] or one < 1:
        return None
    work.tell(SAME, request, "levels of `Quantize` kept between 0 and its greatest")
    return [request.made("Quantize", request.args[0], held[0], min(held[1:]), max(held[1:]), n[3])]


def pixel_filter(work: Work, request: Request) -> list[Request] | None:
    name, n = request.word(0), request.numbers(1)
    if name in ("box", "triangle", "gaussian") and len(n) == 2:
        if all(1 / 256 <= it <= 16 for it in n):
            return None
        held = [min(max(it, 1 / 256), 16.0) for it in n]
        return [request.made("PixelFilter", name, *held)] if work.tell(NEAR, request, "a filter's width put into 1/256 to 16") else None
    if not work.tell(NEAR, request, f'`PixelFilter` "{name}" turned into "gaussian" 2 2'):
        return None
    return [request.made("PixelFilter", "gaussian", 2.0, 2.0)]


def samples(work: Work, request: Request) -> list[Request] | None:
    n = request.numbers()
    if len(n) != 2 or all(1 <= it < 17 for it in n):
        return None
    if not work.tell(NEAR, request, "samples of a pixel put into 1 to 16 each way"):
        return None
    return [request.made("PixelSamples", *(float(min(max(it, 1.0), 16.0)) for it in n))]


def clipping(work: Work, request: Request) -> list[Request] | None:
    n = request.numbers()
    if len(n) != 2:
        return None
    near = max(n[0], 2 * LEAST)
    far = min(max(n[1], near + 2 * LEAST), GREATEST)
    if n[0] >= LEAST and n[0] < n[1] and n[0] < GREATEST:
        return None
    work.tell(SAME, request, "planes of `Clipping` put where the profile has them")
    return [request.made("Clipping", min(near, GREATEST - 1), far)]


def size(work: Work, request: Request) -> list[Request] | None:
    """A picture's size, which is at most 4096 each way, with its third number."""
    n = request.numbers()
    if len(n) < 2:
        return None
    if n[0] < 1 or n[1] < 1:
        work.tell(SAME, request, "`Format` without a size taken out: the picture has 640 by 480 pixels")
        return []
    wide, high = int(n[0]), int(n[1])
    if max(wide, high) > 4096:
        if not work.tell(NEAR, request, "a picture of more than 4096 pixels a side drawn smaller"):
            return None
        part = 4096 / max(wide, high)
        wide, high = max(1, int(wide * part)), max(1, int(high * part))
    if (wide, high) == (n[0], n[1]) and len(n) == 3:
        return None
    if len(n) != 3 or (n[0] % 1 or n[1] % 1):
        work.tell(SAME, request, "`Format` with whole numbers of pixels and a third number")
    return [request.made("Format", float(wide), float(high), 1.0)]


def crop(work: Work, request: Request) -> list[Request] | None:
    n = request.numbers()
    held = [min(max(it, 0.0), 1.0) for it in n]
    if len(n) != 4 or held == n:
        return None
    work.tell(SAME, request, "`CropWindow` kept within the picture")
    return [request.made("CropWindow", *held)]


def projection(work: Work, request: Request) -> list[Request] | None:
    """The projection with the parameters that it has."""
    name = request.word(0)
    if name not in ("perspective", "orthographic"):
        if not work.tell(LEFT, request, f"`Projection` {name} drawn in perspective"):
            return None
        name = "perspective"
    row: list[Argument] = []
    for token, value in variables.pairs(request.args[1:]):
        key, kind = variables.token_of(token, work.declared)
        if key == "fov" and len(variables.floats(value)) == 1 and kind is not None and kind.type in ("float", "integer"):
            row += [token, value]
        elif work.tell(SAME if key in ("mindistance", "maxdistance") else LEFT, request, f"parameter `{key}` of `Projection` left out"):
            continue
        else:
            row += [token, value]
    if name == request.word(0) and len(row) == len(request.args) - 1:
        return None
    return [request.made("Projection", name, *row)]


# ---- colours
def color_samples(work: Work, request: Request) -> list[Request] | None:
    """Keeps the map from colours of n parts to three."""
    to_rgb = request.array(0).reshape(-1, 3)
    work.tell(SAME, request, "`ColorSamples`: colours turned into red, green and blue")
    plain = to_rgb.shape == (3, 3) and np.array_equal(to_rgb, np.eye(3))
    work.state.option(samples=() if plain else tuple(tuple(it) for it in to_rgb))
    return []


def color(work: Work, request: Request) -> list[Request] | None:
    samples_, n = work.state.options.samples, request.numbers()
    if not samples_ or len(n) != len(samples_):
        return None
    return [request.made(request.name, np.array(n) @ np.array(samples_))]


# ---- what lies behind everything
def imager(work: Work, request: Request) -> list[Request] | None:
    """An imager that gives a background is a patch of that colour; another one is left out."""
    name = request.word(0) or ""
    if not name:
        work.tell(SAME, request, "`Imager` without a name taken out")
        return []
    colours = [variables.floats(value) for token, value in variables.pairs(request.args[1:]) if "color" in token or "background" in token or "bg" in token]
    found = next((it for it in colours if len(it) == 3), None)
    if "background" not in name.lower() or found is None:
        return [] if work.tell(LEFT, request, f"`Imager` {name} left out") else None
    work.tell(SAME, request, "an `Imager` with a colour turned into a patch of that colour far away")
    work.background = tuple(found)
    return []


def world(work: Work, request: Request) -> list[Request] | None:
    """The begin of a world, and in it what lies behind everything."""
    colour = work.background
    if colour is None:
        return None
    state, options = work.state, work.state.options
    left, right, bottom, top = options.window()
    slope = options.slope()
    reach = max(abs(it) for it in (left, right, bottom, top)) * slope * 1.02
    far = min(options.far * 0.999, FAR / max(1.0, reach) if options.perspective else FAR)
    wide = far * slope if options.perspective else 1.0
    corners = np.array([[x * wide * 1.02, y * wide * 1.02, far] for y in (bottom, top) for x in (left, right)])
    if not math.isfinite(far):
        return None
    p = matrices.points(matrices.inverse(state.maps[0]), corners)
    made = request.made
    return [made("WorldBegin"), made("AttributeBegin"), made("Surface", "constant"), made("Color", np.array(colour)), made("Opacity", np.ones(3)),
            made("Sides", 2.0), made("ShadingRate", 100.0), made("Patch", "bilinear", "P", p.ravel()), made("AttributeEnd")]


PASSES = {"Display": (display,), "Quantize": (quantize,), "PixelFilter": (pixel_filter,), "PixelSamples": (samples,), "Clipping": (clipping,),
          "Format": (size,), "CropWindow": (crop,), "Projection": (projection,), "ColorSamples": (color_samples,), "Color": (color,),
          "Opacity": (color,), "Imager": (imager,), "WorldBegin": (world,)}
