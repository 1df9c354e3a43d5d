"""Reads the account of a pixel from the JSON that the program `why` writes."""
from __future__ import annotations

import json
from collections.abc import Callable, Mapping
from typing import Any, TypeVar

from reyes.errors import Trouble
from reyes.why.account import ONE, Account, Cell, Corner, Fragment, GridPoint, Options, Piece, Primitive, Request, Sample, Spot, Triple

T = TypeVar("T")
Object = Mapping[str, Any]


def account(data: bytes) -> Account:
    """The account that a text is. Raises Trouble where it is none."""
    try:
        return _account(json.loads(data))
    except (ValueError, KeyError, TypeError, IndexError) as fault:
        raise Trouble(f"what the program `why` wrote is no account of a pixel ({type(fault).__name__}: {fault})") from fault


def _account(it: Object) -> Account:
    frame, sums = it["frame"], it["sums"]
    return Account(
        frame=int(frame["number"]),
        size=(int(frame["width"]), int(frame["height"])),
        options=_options(frame),
        pixel=(int(it["pixel"]["x"]), int(it["pixel"]["y"])),
        samples=_each(_sample, it["samples"]),
        sum=_triple(sums["colour"]),
        divisor=_raw(sums["weight"]),
        mean=_triple(it["mean"]),
        bright=_triple(it["bright"]),
        exposed=_triple(it["exposed"]),
        rounded=_wholes(it["rounded"]),
        levels=_wholes(it["levels"]),
        written=tuple(map(int, it["bytes"])),
    )


def _options(it: Object) -> Options:
    crop, chosen = it["crop"], it["filter"]
    return Options(
        samples=(int(it["samples"]["across"]), int(it["samples"]["down"])),
        filter=str(chosen["name"]),
        widths=(_raw(chosen["across"]), _raw(chosen["down"])),
        gain=_raw(it["gain"]),
        gamma=_raw(it["gamma"]),
        one=int(it["one"]),
        least=int(it["min"]),
        most=int(it["max"]),
        crop=(int(crop["left"]), int(crop["top"]), int(crop["right"]), int(crop["bottom"])),
    )


def _sample(it: Object) -> Sample:
    return Sample(_spot(it["place"]), _raw(it["time"]), _raw(it["weight"]), _each(_fragment, it["fragments"]), _triple(it["colour"]))


def _fragment(it: Object) -> Fragment:
    piece, cell, corners = it["piece"], it["cell"], it.get("corners", [])
    grid = Piece(_primitive(it["primitive"]), _part(piece["u"]), _part(piece["v"]), int(cell["columns"]), int(cell["rows"]))
    return Fragment(
        depth=_raw(it["depth"]),
        colour=_triple(it["colour"]),
        opacity=_triple(it["opacity"]),
        cell=Cell(grid, int(cell["column"]), int(cell["row"]), _each(_point, corners)),
        corners=_each(_corner, corners),
        after=_triple(it["composite"]["colour"]),
        passed=_triple(it["composite"]["passed"]),
    )


def _primitive(it: Object) -> Primitive:
    mesh = it["mesh"]
    kinds = [kind for kind in ("surface", "displacement", "atmosphere") if it[kind] is not None]
    return Primitive(
        number=int(it["number"]),
        line=int(it["line"]),
        place=(int(mesh["column"]), int(mesh["columns"]), int(mesh["row"]), int(mesh["rows"])),
        shaders=tuple(_request(kind, it[kind]) for kind in kinds),
        smooth=bool(it["smooth"]),
        moves=bool(it["moves"]),
    )


def _request(kind: str, it: Object) -> Request:
    return Request(kind, str(it["name"]), int(it["line"]))


def _point(it: Object) -> GridPoint:
    return GridPoint(_triple(it["P"]), _triple(it["Ci"]), _triple(it["Oi"]), _raw(it["u"]), _raw(it["v"]))


def _corner(it: Object) -> Corner:
    return Corner(_spot(it["raster"]), _raw(it["depth"]), _triple(it["colour"]), _triple(it["opacity"]))


def _part(it: Object) -> Spot:
    """The parameters at both ends of a part, as raws: an account counts it among so many of the same length."""
    part, of = int(it["part"]), int(it["of"])
    return part * ONE // of, (part + 1) * ONE // of


def _each(make: Callable[[Any], T], items: Any) -> tuple[T, ...]:
    return tuple(make(it) for it in items)


def _spot(it: Object) -> Spot:
    return _raw(it["x"]), _raw(it["y"])


def _triple(it: Any) -> Triple:
    first, second, third = it
    return _raw(first), _raw(second), _raw(third)


def _wholes(it: Any) -> Triple:
    first, second, third = it
    return int(first), int(second), int(third)


def _raw(it: Object) -> int:
    return int(it["raw"])
