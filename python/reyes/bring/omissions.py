"""What the profile has nothing for: it is left out and told, or taken out where nothing is lost by that."""
from __future__ import annotations

import numpy as np

from . import matrices
from .changes import LEFT, NEAR, SAME
from .text import Request
from .work import Work

# What every request of the profile and of this package is called; another one is no request of the interface.
KNOWN = frozenset("""FrameBegin FrameEnd WorldBegin WorldEnd AttributeBegin AttributeEnd TransformBegin TransformEnd Identity ReverseOrientation Declare
Format FrameAspectRatio ScreenWindow CropWindow Clipping Projection Shutter PixelSamples PixelFilter Exposure Quantize Display Color Opacity
ShadingRate ShadingInterpolation Sides Orientation Surface Displacement Atmosphere LightSource Illuminate Attribute Basis Translate Scale Rotate
Transform ConcatTransform MotionBegin MotionEnd Patch PatchMesh Polygon PointsPolygons Sphere Cylinder Cone Disk version ErrorHandler Hider
RelativeDetail GeometricApproximation PixelVariance Bound CoordinateSystem Option GeneralPolygon PointsGeneralPolygons NuPatch TrimCurve
SubdivisionMesh HierarchicalSubdivisionMesh Curves Points Blobby Hyperboloid Paraboloid Torus SolidBegin SolidEnd AreaLightSource Skew
CoordSysTransform ScopedCoordinateSystem TextureCoordinates ColorSamples Imager Detail DetailRange ObjectBegin ObjectEnd ObjectInstance ReadArchive
Procedural ArchiveBegin ArchiveEnd IfBegin ElseIf Else IfEnd""".split())
PRIMITIVES = frozenset("""Patch PatchMesh Polygon PointsPolygons Sphere Cylinder Cone Disk GeneralPolygon PointsGeneralPolygons NuPatch SubdivisionMesh
HierarchicalSubdivisionMesh Curves Points Blobby Hyperboloid Paraboloid Torus""".split())
PLAIN = ("Deformation", "Perspective", "Geometry", "Interior", "Exterior", "Matte", "DepthOfField")


def left(work: Work, request: Request) -> list[Request] | None:
    """Left out: a request that the profile refuses, or one that is none of the interface's."""
    name, word, n = request.name, request.word(0), request.numbers()
    nothing = name in ("Interior", "Exterior") and not word or name == "Matte" and n == [0.0] or name == "DepthOfField" and (not n or n[0] >= 1e30)
    if nothing:
        work.tell(SAME, request, f"`{name}` without effect taken out")
        return []
    words = f"`{name}` left out" if name in PLAIN or name.startswith("Make") else f"`{name}` left out: no request of RenderMan Interface 3.2"
    return [] if work.tell(LEFT, request, words) else None


def detail(work: Work, request: Request) -> list[Request] | None:
    """Keeps how large the bound of `Detail` is in the picture, in pixels."""
    n = request.numbers()
    if len(n) != 6:
        return None
    work.tell(SAME, request, "`Detail` and `DetailRange`: the representation drawn whose range the size in the picture is in")
    work.state.set(size=pixels(work, n))
    return []


def pixels(work: Work, bound: list[float]) -> float:
    """The area of the rectangle around a bound in the picture, in pixels, times the detail that is wanted; endless where it reaches behind
    the camera."""
    options = work.state.options
    corners = np.array([[x, y, z] for x in bound[0:2] for y in bound[2:4] for z in bound[4:6]])
    p = matrices.points(work.state.to_camera(), corners)
    if options.perspective:
        if p[:, 2].min() <= 0:
            return float("inf")
        p = p / (p[:, 2:] * options.slope())
    left_, right, bottom, top = options.window()
    wide = np.ptp(p[:, 0]) / (right - left_) * options.width
    high = np.ptp(p[:, 1]) / (top - bottom) * options.height
    return float(wide * high) * options.detail


def detail_range(work: Work, request: Request) -> list[Request] | None:
    """Hides what follows unless the size is in the range; in the ranges between two representations the nearer one is drawn."""
    n = request.numbers()
    if len(n) != 4:
        return None
    size = work.state.attributes.size
    begin, low, high, end = n
    if begin < size < low or high < size < end:
        if not work.tell(NEAR, request, "between two ranges of detail the nearer representation drawn, not both"):
            return None
    work.state.set(hidden=not (begin + low) / 2 <= size < (high + end) / 2 and not (size >= 1e30 and end >= 1e30))
    return []


def shown(work: Work, request: Request) -> list[Request] | None:
    """Takes out what its range of detail hides."""
    return [] if work.state.attributes.hidden else None


def made(work: Work, request: Request) -> list[Request] | None:
    """Takes a `MakeTexture` out: what it makes is made where it is looked up. What else is made is looked up by no shader here."""
    if request.name in ("MakeTexture", "MakeBump"):
        source, target = request.word(0), request.word(1)
        if source and target:
            work.textures.made[target] = source
        if request.name == "MakeTexture" and "periodic" in (request.word(2), request.word(3)):
            if not work.tell(NEAR, request, "a texture that repeats: it doesn't here, past its edges"):
                return None
        work.tell(SAME, request, f"`{request.name}` taken out: textures are read as they are")
        return []
    return [] if work.tell(LEFT, request, f"`{request.name}` left out: no shader here looks it up") else None


MADE = ("MakeTexture", "MakeBump", "MakeShadow", "MakeLatLongEnvironment", "MakeCubeFaceEnvironment", "MakeOcclusion", "MakeBrickMap")
PASSES = {**{name: (made,) for name in MADE}, **{name: (left,) for name in PLAIN}, "Detail": (detail,), "DetailRange": (detail_range,)}
