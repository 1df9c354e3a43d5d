"""The RenderMan Interface's calls as functions that write a RIB text.

    ri.Begin()                              # or ri.Begin("ball.rib"), which End writes
    ri.Display("ball.ppm")
    with ri.WorldBegin():                   # WorldEnd comes at the end of the `with`; calling ri.WorldEnd() does as well
        ri.LightSource("distantlight", {"to": [1, -1, 1]})
        ri.Surface("plastic", {"Ks": .8})
        ri.Sphere(1, -1, 1)
    text = ri.End()

Lists of parameters are dictionaries; their values are numbers, strings, lists, or NumPy arrays of any shape. Names, types and numbers of
values are checked as they are written: what the renderer would refuse is raised as Trouble, with the code that it would answer. Archives and
objects are written out where they are used, since the renderer reads neither.
"""
from __future__ import annotations

import difflib
from collections.abc import Sequence
from pathlib import Path
from types import TracebackType
from typing import Any

from reyes import explain, look_at, rib, ri_text
from reyes.errors import Trouble, file_trouble
from reyes.ri_text import Parameters, Values, Writing, array, flat, line, listed, number, numbers, one_of, primitive, request, values, whole


class Block:
    """What a call such as WorldBegin gives: as the subject of a `with` it writes the block's end."""

    def __init__(self, end: str) -> None:
        self.end = end

    def __enter__(self) -> None:
        return None

    def __exit__(self, kind: type[BaseException] | None, fault: BaseException | None, trace: TracebackType | None) -> None:
        if kind is None:
            globals()[self.end]()


def Begin(name: str | Path | None = None) -> None:
    """Begins a text, which End gives, and writes to a file where one is named."""
    ri_text.now[:] = [Writing(None if name is None else Path(name))]


def End() -> str:
    """Ends the text and gives it. Raises Trouble where its file can't be written."""
    writing = ri_text.current()
    ri_text.now.clear()
    text = "\n".join([*writing.lines, ""])
    if writing.target is not None:
        try:
            writing.target.write_text(text, "latin-1")
        except OSError as fault:
            raise file_trouble(writing.target, fault) from fault
    return text


def ArchiveRecord(kind: str, text: str) -> None:
    """A comment ("comment"), a comment on structure ("structure"), or a text as it is ("verbatim")."""
    mark = {"comment": "#", "structure": "##", "verbatim": ""}.get(kind)
    if mark is None:
        raise Trouble(f"ArchiveRecord {kind!r}: it is comment, structure or verbatim")
    for row in text.splitlines():
        line(mark + row)


def ReadArchive(name: str | Path) -> None:
    """The text of a file, at this place. Raises Trouble where it can't be read."""
    try:
        line(Path(name).read_text("latin-1").rstrip("\n"))
    except OSError as fault:
        raise file_trouble(name, fault) from fault


def FrameBegin(number: int) -> Block:
    """Begins a frame; its end restores options, attributes and transformation."""
    request("FrameBegin", whole(number))
    return Block("FrameEnd")


def FrameEnd() -> None:
    """Ends a frame."""
    request("FrameEnd")


def WorldBegin() -> Block:
    """Begins a world: the transformation in force becomes the camera's."""
    request("WorldBegin")
    return Block("WorldEnd")


def WorldEnd() -> None:
    """Ends a world: the frame is drawn."""
    request("WorldEnd")


def AttributeBegin() -> Block:
    """Saves attributes and transformation."""
    request("AttributeBegin")
    return Block("AttributeEnd")


def AttributeEnd() -> None:
    """Restores attributes and transformation."""
    request("AttributeEnd")


def TransformBegin() -> Block:
    """Saves the transformation."""
    request("TransformBegin")
    return Block("TransformEnd")


def TransformEnd() -> None:
    """Restores the transformation."""
    request("TransformEnd")


def MotionBegin(*times: float | Sequence[float]) -> Block:
    """Begins a motion block of two times: the same request follows twice."""
    request("MotionBegin", array(flat(times, 2)))
    return Block("MotionEnd")


def MotionEnd() -> None:
    """Ends a motion block."""
    request("MotionEnd")


def ObjectBegin() -> int:
    """Begins an object, and gives its handle: what is written up to ObjectEnd is written at each ObjectInstance."""
    writing = ri_text.current()
    if writing.around is not None:
        raise Trouble("ObjectBegin in an object")
    writing.around, writing.lines = writing.lines, []
    return len(writing.objects)


def ObjectEnd() -> None:
    """Ends an object."""
    writing = ri_text.current()
    if writing.around is None:
        raise Trouble("ObjectEnd without its ObjectBegin")
    writing.objects.append(writing.lines)
    writing.lines, writing.around = writing.around, None


def ObjectInstance(handle: int) -> None:
    """An object at this place, with the attributes and the transformation in force."""
    objects = ri_text.current().objects
    if not 0 <= handle < len(objects):
        raise Trouble(f"ObjectInstance {handle}: there is no such object")
    with AttributeBegin():
        for row in objects[handle]:
            line(row)


def Declare(name: str, declaration: str) -> None:
    """Declares a name, as Declare("weight", "varying float"); the class is uniform where none is given."""
    words = declaration.split()
    kind = tuple(words) if len(words) == 2 else ("uniform", *words)
    if len(kind) != 2 or kind[0] not in ri_text.CLASSES or kind[1] not in ri_text.WIDTHS or kind[1] == "pair":
        raise Trouble(f"S2: Declare {name!r}: {declaration!r} is no type, or class and type")
    request("Declare", rib.quoted(name), rib.quoted(declaration))
    ri_text.current().declared[name] = (kind[0], kind[1])


def Format(width: int, height: int, aspect: float = 1) -> None:
    """The picture's size in pixels; pixels are square, whatever the aspect."""
    request("Format", whole(width), whole(height), number(aspect))


def FrameAspectRatio(ratio: float) -> None:
    """The width of the screen window by its height."""
    request("FrameAspectRatio", number(ratio))


def ScreenWindow(left: float, right: float, bottom: float, top: float) -> None:
    """The window of the screen that the picture shows."""
    request("ScreenWindow", *numbers(left, right, bottom, top))


def CropWindow(xmin: float, xmax: float, ymin: float, ymax: float) -> None:
    """The part of the picture that is drawn, from 0 to 1."""
    request("CropWindow", *numbers(xmin, xmax, ymin, ymax))


def Clipping(near: float, far: float) -> None:
    """The least and the greatest depth that is seen."""
    request("Clipping", *numbers(near, far))


def Projection(name: str, parameters: Parameters | None = None, /, **named: Values) -> None:
    """"perspective", with its whole angle `fov` in degrees, or "orthographic"."""
    request("Projection", one_of("Projection", name, "orthographic", "perspective"), *listed("Projection", parameters, named))


def Shutter(opens: float, closes: float) -> None:
    """From when to when the shutter is open."""
    request("Shutter", *numbers(opens, closes))


def PixelSamples(x: float, y: float) -> None:
    """Samples of a pixel along x and y."""
    request("PixelSamples", *numbers(x, y))


def PixelFilter(name: str, width: float, height: float) -> None:
    """"box", "triangle" or "gaussian", with its size in pixels."""
    request("PixelFilter", one_of("PixelFilter", name, "box", "triangle", "gaussian"), *numbers(width, height))


def Exposure(gain: float, gamma: float) -> None:
    """The gain and the gamma of the picture's colours."""
    request("Exposure", *numbers(gain, gamma))


def Quantize(kind: str, one: int, least: int, most: int, dither: float = 0) -> None:
    """The level that stands for 1, and the least and greatest levels: 255, 0, 255, or for sixteen bits 65535, 0, 65535."""
    request("Quantize", rib.quoted(kind), whole(one), whole(least), whole(most), number(dither))


def Display(name: str, kind: str = "file", mode: str = "rgb") -> None:
    """The name of the picture."""
    request("Display", rib.quoted(name), rib.quoted(kind), one_of("Display", mode, "rgb", "rgba"))


def Color(*colour: float | Sequence[float]) -> None:
    """The colour of what follows: three numbers."""
    request("Color", array(flat(colour, 3)))


def Opacity(*opacity: float | Sequence[float]) -> None:
    """The opacity of what follows: three numbers."""
    request("Opacity", array(flat(opacity, 3)))


def ShadingRate(area: float) -> None:
    """The greatest area of a micropolygon in square pixels."""
    request("ShadingRate", number(area))


def ShadingInterpolation(kind: str) -> None:
    """"constant" or "smooth" over each micropolygon."""
    request("ShadingInterpolation", one_of("ShadingInterpolation", kind, "constant", "smooth"))


def Sides(sides: int) -> None:
    """1: what faces away isn't drawn; 2: both sides are."""
    request("Sides", whole(sides))


def Orientation(kind: str) -> None:
    """"outside" or "inside"."""
    request("Orientation", one_of("Orientation", kind, "outside", "inside"))


def ReverseOrientation() -> None:
    """Turns the orientation round."""
    request("ReverseOrientation")


def Surface(name: str, parameters: Parameters | None = None, /, **named: Values) -> None:
    """The surface shader of what follows."""
    request("Surface", rib.quoted(name), *listed("Surface", parameters, named))


def Displacement(name: str, parameters: Parameters | None = None, /, **named: Values) -> None:
    """The displacement shader of what follows; it moves nothing without an `Attribute("displacementbound", {"sphere": b})`."""
    request("Displacement", rib.quoted(name), *listed("Displacement", parameters, named))


def Atmosphere(name: str, parameters: Parameters | None = None, /, **named: Values) -> None:
    """The volume shader through which what follows is seen."""
    request("Atmosphere", rib.quoted(name), *listed("Atmosphere", parameters, named))


def LightSource(name: str, parameters: Parameters | None = None, /, **named: Values) -> int:
    """A light, turned on; gives its number for Illuminate."""
    writing = ri_text.current()
    found = listed("LightSource", parameters, named)
    writing.lights += 1
    request("LightSource", rib.quoted(name), str(writing.lights), *found)
    return writing.lights


def Illuminate(light: int, on: bool) -> None:
    """Turns a light on or off."""
    request("Illuminate", whole(light), "1" if on else "0")


def Attribute(name: str, parameters: Parameters | None = None, /, **named: Values) -> None:
    """An attribute: "displacementbound" with its "sphere", how far a displacement moves points in camera space; others have no effect."""
    pairs = {**(parameters or {}), **named}
    found = [part for token, value in pairs.items() for part in (rib.quoted(token), array(values(value)))]
    request("Attribute", rib.quoted(name), *found)


def Basis(u: str, ustep: int, v: str, vstep: int) -> None:
    """The bases of bicubic patches: "bezier" (step 3), "b-spline" (1), "catmull-rom" (1), "hermite" (2) or "power" (4)."""
    bases = ("bezier", "b-spline", "catmull-rom", "hermite", "power")
    request("Basis", one_of("Basis", u, *bases), whole(ustep), one_of("Basis", v, *bases), whole(vstep))


def Identity() -> None:
    """The transformation of the world."""
    request("Identity")


def Transform(matrix: Values) -> None:
    """Sixteen numbers, or an array of 4 by 4, in place of the transformation; points are rows."""
    request("Transform", array(flat((matrix,), 16)))


def ConcatTransform(matrix: Values) -> None:
    """Sixteen numbers, or an array of 4 by 4, before the transformation; points are rows."""
    request("ConcatTransform", array(flat((matrix,), 16)))


def LookAt(place: Sequence[float], aim: Sequence[float], up: Sequence[float] = (0, 1, 0)) -> None:
    """Puts the camera at a point of the world, with another in the middle of the picture: a Transform, before WorldBegin."""
    Transform(look_at.matrix(place, aim, up))


def Translate(x: float, y: float, z: float) -> None:
    """Moves what follows."""
    request("Translate", *numbers(x, y, z))


def Rotate(angle: float, x: float, y: float, z: float) -> None:
    """Turns what follows by an angle in degrees about an axis."""
    request("Rotate", *numbers(angle, x, y, z))


def Scale(x: float, y: float, z: float) -> None:
    """Scales what follows."""
    request("Scale", *numbers(x, y, z))


def Patch(kind: str, parameters: Parameters | None = None, /, **named: Values) -> None:
    """A "bilinear" patch of four points, or a "bicubic" one of sixteen, u fastest: {"P": [..]}."""
    points = 4 if one_of("Patch", kind, "bilinear", "bicubic") == '"bilinear"' else 16
    primitive("Patch", [rib.quoted(kind)], parameters, named, {"uniform": 1, "varying": 4, "vertex": points, "facevarying": 4})


def PatchMesh(kind: str, nu: int, uwrap: str, nv: int, vwrap: str, parameters: Parameters | None = None, /, **named: Values) -> None:
    """A mesh of nu by nv points, "periodic" or "nonperiodic" each way."""
    wraps = [one_of("PatchMesh", it, "periodic", "nonperiodic") for it in (uwrap, vwrap)]
    words = [one_of("PatchMesh", kind, "bilinear", "bicubic"), whole(nu), wraps[0], whole(nv), wraps[1]]
    counts = {"vertex": nu * nv, "varying": nu * nv if kind == "bilinear" else 0, "facevarying": nu * nv if kind == "bilinear" else 0}
    primitive("PatchMesh", words, parameters, named, counts)


def Polygon(parameters: Parameters | None = None, /, **named: Values) -> None:
    """A convex polygon: its corners in order as "P"."""
    points = ri_text.points_of("Polygon", parameters, named)
    primitive("Polygon", [], parameters, named, {"uniform": 1, **dict.fromkeys(("varying", "vertex", "facevarying"), points)})


def PointsPolygons(corners: Values, places: Values, parameters: Parameters | None = None, /, **named: Values) -> None:
    """Convex polygons: how many corners each has, the places of their points in "P", counted from 0, and "P"."""
    counts, order = ([int(it) for it in flat((given,), None)] for given in (corners, places))
    points = ri_text.points_of("PointsPolygons", parameters, named)
    if sum(counts) != len(order) or any(not 0 <= it < points for it in order):
        raise Trouble(f"G5: PointsPolygons of {sum(counts)} corners: {len(order)} places are listed, of {points} points")
    each = {"uniform": len(counts), "varying": points, "vertex": points, "facevarying": len(order)}
    primitive("PointsPolygons", [array(counts), array(order)], parameters, named, each)


def Sphere(radius: float, zmin: float, zmax: float, angle: float = 360, parameters: Parameters | None = None, /, **named: Values) -> None:
    """A whole sphere about the origin: Sphere(r, -r, r)."""
    primitive("Sphere", numbers(radius, zmin, zmax, angle), parameters, named, ri_text.QUADRIC)


def Cylinder(radius: float, zmin: float, zmax: float, angle: float = 360, parameters: Parameters | None = None, /, **named: Values) -> None:
    """A whole cylinder about the z axis."""
    primitive("Cylinder", numbers(radius, zmin, zmax, angle), parameters, named, ri_text.QUADRIC)


def Cone(height: float, radius: float, angle: float = 360, parameters: Parameters | None = None, /, **named: Values) -> None:
    """A whole cone about the z axis, from its base at 0 to its tip."""
    primitive("Cone", numbers(height, radius, angle), parameters, named, ri_text.QUADRIC)


def Disk(height: float, radius: float, angle: float = 360, parameters: Parameters | None = None, /, **named: Values) -> None:
    """A whole disk about the z axis."""
    primitive("Disk", numbers(height, radius, angle), parameters, named, ri_text.QUADRIC)


def __getattr__(name: str) -> Any:
    """What is asked for and isn't here: a request that the renderer refuses or passes over, or a name that it doesn't know."""
    if name.startswith("__"):
        raise AttributeError(name)
    said = next((row.said for row in explain.rows() if row.name == name and row.page == "docs/RIB.md"), "")
    near = difflib.get_close_matches(name, [it for it in globals() if it[0].isupper()], 1)
    why = f"{name} {said}" if said else "no request has the name" + (f"; the nearest known name is {near[0]!r}" if near else "")
    raise AttributeError(f"ri.{name}: {why}")
