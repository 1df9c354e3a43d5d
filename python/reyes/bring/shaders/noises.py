"""Noise of three values, of a place and a time, of cells, and with a period."""
from __future__ import annotations

from reyes.bring.shaders import values
from reyes.bring.shaders.table import ZERO, given, lowers
from reyes.bring.shaders.library import PREFIX
from reyes.bring.shaders.tree import Call, Cast, Expression, Infix, Name, Number, Parts
from reyes.bring.shaders.types import type_of
from reyes.bring.shaders.work import NEAR, PLACES, SAME, TRIPLES, Work

# Where a fourth number leads away from a place: a direction that no lattice has.
FOURTH = Parts("vector", None, (Number("0.7"), Number("0.4"), Number("0.6")))


def is_noise(it: Expression) -> bool:
    """Whether a lowered value is noise of three values."""
    return isinstance(it, Call) and it.name in (f"{PREFIX}{kind}_{type}" for kind in ("noise", "cell") for type in ("color", "vector"))


def place_of(work: Work, found: list[Expression]) -> Expression:
    """The place that the arguments of a noise are, as one point."""
    first = found[0]
    if type_of(work, first) == "color":
        first = values.as_type(work, first, "point")
    if type_of(work, first) in PLACES:
        if len(found) > 1:
            first = Infix("+", first, Infix("*", found[1], FOURTH, at=first.at), at=first.at)
        return first
    rest = found[1] if len(found) > 1 else ZERO
    if len(found) > 2:
        return Parts("point", None, (first, rest, found[2]), at=first.at)
    return Parts("point", None, (first, rest, ZERO), at=first.at)


def three(work: Work, kind: str, place: Expression, want: str) -> Expression:
    """Three noises at places apart, as a colour or a point."""
    if want == "color":
        return work.of_library(f"{kind}_color", place)
    found = work.of_library(f"{kind}_vector", place)
    return found if want == "vector" else Cast(want, None, found, at=place.at)


@lowers("noise")
def noise(work: Work, it: Call, want: str) -> Expression:
    """`noise` of one or two numbers, or of a place and perhaps a time."""
    given(it, 1, 3)
    found = [values.value(work, one) for one in it.arguments]
    is_place = type_of(work, found[0]) in TRIPLES
    if len(found) > (1 if is_place else 2):
        if is_place:
            work.tell(NEAR, it.at, "noise of a point and a fourth number taken as noise of one point: other values of the same kind")
    if want in TRIPLES:
        work.tell(NEAR, it.at, "noise of three values made of three noises at places apart: other values of the same kind")
        return three(work, "noise", place_of(work, found), want)
    if (is_place and (len(found) > 1 or type_of(work, found[0]) == "color")) or len(found) > 2:
        return Call("noise", (place_of(work, found),), at=it.at)
    return Call("noise", tuple(found), at=it.at)


@lowers("cellnoise")
def cells(work: Work, it: Call, want: str) -> Expression:
    """`cellnoise`: the noise at whole numbers, which is even between 0 and 1."""
    given(it, 1, 2)
    found = [values.value(work, one) for one in it.arguments]
    if want in TRIPLES:
        work.tell(NEAR, it.at, "`cellnoise` of three values made of three noises at places apart: other values of the same kind")
        return three(work, "cell", place_of(work, found), want)
    work.tell(SAME, it.at, "`cellnoise` as noise of whole numbers")
    if type_of(work, found[0]) in TRIPLES:
        return Call("noise", (Call("floor", (place_of(work, found),), at=it.at),), at=it.at)
    return Call("noise", tuple(Call("floor", (one,), at=it.at) for one in found), at=it.at)


@lowers("pnoise")
def periodic(work: Work, it: Call, want: str) -> Expression:
    """`pnoise`: noise of the remainder by the period, which jumps where the period begins anew."""
    given(it, 2, 4)
    half = len(it.arguments) // 2
    work.tell(NEAR, it.at, "`pnoise` as noise of the remainder: a seam shows where its period begins anew")
    pairs = zip(it.arguments[:half], it.arguments[half:])
    return noise(work, Call("noise", tuple(Call("mod", pair, at=it.at) for pair in pairs), at=it.at), want)


@lowers("random")
def random(work: Work, it: Call, want: str) -> Expression:
    """`random`: noise at places far apart, the same in each picture."""
    work.tell(NEAR, it.at, "`random` as noise at places far apart, the same in each picture")
    place = "Ps" if work.kind == "light" else "P"
    spread = Infix("*", Name(place, at=it.at), Number("97.3"), at=it.at)
    return noise(work, Call("noise", (spread,), at=it.at), want)
