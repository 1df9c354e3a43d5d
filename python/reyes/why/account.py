"""The account of a pixel, as the program `why` gives it in JSON: numbers are raws, whole numbers of 65536ths.

Places on the raster are in 256ths of a pixel, from the left and from above.
"""
from __future__ import annotations

from dataclasses import dataclass

ONE = 65536
PIXEL = 256  # the side of a pixel on the raster
Triple = tuple[int, int, int]
Spot = tuple[int, int]


@dataclass(frozen=True)
class Corner:
    """A corner of a micropolygon on the raster, at a sample's time: its place, its depth, and the colour and opacity that it has there."""

    place: Spot
    depth: int
    colour: Triple
    opacity: Triple


@dataclass(frozen=True)
class GridPoint:
    """A point of a shaded grid: P in camera space, Ci and Oi as its shaders leave them, and its parameters u and v."""

    point: Triple
    colour: Triple
    opacity: Triple
    u: int
    v: int


@dataclass(frozen=True)
class Request:
    """A scene's request for a shader: its kind ("surface", "displacement" or "atmosphere"), the shader's name, and the request's line."""

    kind: str
    name: str
    line: int


@dataclass(frozen=True)
class Primitive:
    """A primitive: its place among those of the frame, the line of its request, where its patch stands in its mesh (column, columns, row,
    rows), its shaders but for its lights, and whether colour varies over its micropolygons and whether it moves.
    """

    number: int
    line: int
    place: tuple[int, int, int, int]
    shaders: tuple[Request, ...]
    smooth: bool
    moves: bool


@dataclass(frozen=True)
class Piece:
    """The part of a patch that a grid is made of, from the first u to the second and from the first v to the second, and how many columns
    and rows of micropolygons the grid has.
    """

    primitive: Primitive
    u: Spot
    v: Spot
    columns: int
    rows: int


@dataclass(frozen=True)
class Cell:
    """A micropolygon: its grid, its column and row there, and its corners in turn as points of the grid (none where they weren't asked)."""

    piece: Piece
    column: int
    row: int
    points: tuple[GridPoint, ...]


@dataclass(frozen=True)
class Fragment:
    """What a sample sees of a micropolygon: its depth, colour and opacity there; the micropolygon's corners on the raster at the sample's
    time; and the colour of the fragments up to this one, laid over one another, with what passes through them.
    """

    depth: int
    colour: Triple
    opacity: Triple
    cell: Cell
    corners: tuple[Corner, ...]
    after: Triple
    passed: Triple


@dataclass(frozen=True)
class Sample:
    """A sample that counts for the pixel: its place, its time in 65536ths of the shutter's interval, its weight, its fragments from the
    nearest to the first opaque one, and the colour that they make.
    """

    place: Spot
    time: int
    weight: int
    fragments: tuple[Fragment, ...]
    colour: Triple


@dataclass(frozen=True)
class Options:
    """The options that a pixel is made by: samples across and down; the filter's kind and its widths on the raster; gain and gamma; the
    level of a full channel, the least and the greatest level; and the pixels of the picture (left, top, right, bottom).
    """

    samples: Spot
    filter: str
    widths: Spot
    gain: int
    gamma: int
    one: int
    least: int
    most: int
    crop: tuple[int, int, int, int]


@dataclass(frozen=True)
class Account:
    """The account of a pixel of a frame (counted from 0): its samples, the sums over them, and each step from their mean to the levels that
    are written.
    """

    frame: int
    size: Spot
    options: Options
    pixel: Spot
    samples: tuple[Sample, ...]
    sum: Triple
    divisor: int
    mean: Triple
    bright: Triple
    exposed: Triple
    rounded: Triple
    levels: Triple
    written: tuple[int, ...]
