"""Functions of the standard that read the surface, or that give several values at once."""
from __future__ import annotations

from reyes.bring.shaders import calls, values
from reyes.bring.shaders.table import ONE, ZERO, given, lowers
from reyes.bring.shaders.tree import Call, Choice, Expression, Infix, Name, Number, Parts, Place, Refused, Set
from reyes.bring.shaders.types import constant, part, type_of
from reyes.bring.shaders.work import NEAR, SAME, TRIPLES, Work

# What the formulas of the library take.
FORMULAS = {
    "rotate": ("point", "float", "point", "point"), "ptlined": ("point", "point", "point"),
    "specularbrdf": ("vector", "normal", "vector", "float"),
}


def _step(it: Expression, direction: str, at: Place) -> Expression:
    """How far a value goes in one step of the grid."""
    return Infix("*", Call("D" + direction, (it,), at=at), Name("d" + direction, at=at), at=at)


def _differences(work: Work, it: Call) -> None:
    """Refuses derivatives where there is no surface."""
    if work.kind in ("light", "volume"):
        raise Refused(it.at, f"`{it.name}` in a {work.kind}")


@lowers("area")
def area(work: Work, it: Call, want: str) -> Expression:
    """`area(p)`: of the parallelogram that a step in u and one in v span."""
    given(it, 1, 2)
    _differences(work, it)
    work.tell(SAME, it.at, "`area` by the derivatives of its point")
    place = values.named(work, values.converted(work, it.arguments[0], "point"))
    return Call("length", (Infix("^", _step(place, "u", it.at), _step(place, "v", it.at), at=it.at),), at=it.at)


def _width(work: Work, it: Expression, at: Place) -> Expression:
    """How far a value goes in a step of the grid, at least 1/65536."""
    held = values.named(work, it)
    u, v = (Call("abs", (_step(held, direction, at),), at=at) for direction in "uv")
    return Call("max", (Infix("+", u, v, at=at), Number(values.SMALLEST)), at=at)


@lowers("filterwidth")
def filterwidth(work: Work, it: Call, want: str) -> Expression:
    """`filterwidth(x)`, by its derivatives."""
    given(it, 1, 1)
    _differences(work, it)
    work.tell(SAME, it.at, "`filterwidth` by the derivatives of its value")
    return _width(work, values.converted(work, it.arguments[0], "float"), it.at)


@lowers("filterstep")
def filterstep(work: Work, it: Call, want: str) -> Expression:
    """`filterstep(edge, x)` or `(edge, x0, x1)`: a ramp over the width of the filter, as a box has it."""
    _differences(work, it)
    row = [one for one in it.arguments if type_of(work, one) != "string"]
    if len(row) not in (2, 3):
        raise Refused(it.at, f"{len(row)} arguments of `filterstep`")
    work.tell(NEAR, it.at, "`filterstep` as a ramp over one step of the grid")
    edge, *rest = (values.named(work, values.converted(work, one, "float")) for one in row)
    if len(rest) == 2:
        least: Expression = Call("min", tuple(rest))
        width: Expression = Call("max", (Call("abs", (Infix("-", rest[1], rest[0]),)), Number(values.SMALLEST)))
    else:
        width = values.named(work, _width(work, rest[0], it.at))
        least = Infix("-", rest[0], Infix("*", Number("0.5"), width))
    ramp = Infix("/", Infix("-", Infix("+", least, width), edge), width, at=it.at)
    return Call("clamp", (ramp, ZERO, ONE), at=it.at)


@lowers("Deriv")
def deriv(work: Work, it: Call, want: str) -> Expression:
    """`Deriv(y, x)`, by the derivatives in u and v."""
    given(it, 2, 2)
    _differences(work, it)
    work.tell(SAME, it.at, "`Deriv` by the derivatives in u and v")
    above, below = (values.named(work, values.value(work, one)) for one in it.arguments)
    parts = (Infix("/", Call("D" + one, (above,)), Call("D" + one, (below,)), at=it.at) for one in "uv")
    return Infix("+", *parts, at=it.at)


@lowers("asin", "acos")
def arc(work: Work, it: Call, want: str) -> Expression:
    """`asin` and `acos`."""
    given(it, 1, 1)
    work.tell(NEAR, it.at, f"`{it.name}` by a polynomial, within 0.0003")
    return work.of_library(it.name, values.converted(work, it.arguments[0], "float"))


@lowers("atan")
def atan(work: Work, it: Call, want: str) -> Expression:
    """`atan` of one number, or of two."""
    given(it, 1, 2)
    work.tell(NEAR, it.at, "`atan` by a polynomial, within 0.0003")
    found = [values.converted(work, one, "float") for one in it.arguments]
    return work.of_library("atan", *found, *([ONE] if len(found) == 1 else []))


@lowers("log")
def log(work: Work, it: Call, want: str) -> Expression:
    """`log`, to a base too."""
    given(it, 1, 2)
    if len(it.arguments) == 1:
        return calls.native(work, it, want)
    work.tell(SAME, it.at, "`log` to a base as a quotient")
    above, below = (Call("log", (values.converted(work, one, "float"),), at=it.at) for one in it.arguments)
    return Infix("/", above, below, at=it.at)


@lowers("refract")
def refract(work: Work, it: Call, want: str) -> Expression:
    """`refract`."""
    given(it, 3, 3)
    work.tell(SAME, it.at, "`refract` written as the function that the standard has for it")
    row = [values.converted(work, one, kind) for one, kind in zip(it.arguments, ("vector", "normal", "float"))]
    return work.of_library("refract", *row)


@lowers("fresnel")
def fresnel(work: Work, it: Call, want: str) -> Expression:
    """`fresnel(I, N, eta, Kr, Kt [, R, T])`, by Fresnel's equations."""
    if len(it.arguments) not in (5, 7):
        raise Refused(it.at, f"{len(it.arguments)} arguments of `fresnel`")
    work.tell(SAME, it.at, "`fresnel` by Fresnel's equations")
    row = [values.named(work, values.converted(work, one, kind)) for one, kind in zip(it.arguments, ("vector", "normal", "float"))]
    reflected = work.temporary("reflected", "float", work.of_library("fresnel", *row), it.at)
    found: list[Expression] = [reflected, Infix("-", ONE, reflected, at=it.at), Call("reflect", (row[0], row[1])), work.of_library("refract", *row)]
    for target, value in zip(it.arguments[3:], found):
        calls.assign(work, Set("=", target, value, at=it.at))
    return ZERO


@lowers("rotate", "ptlined", "specularbrdf")
def formulas(work: Work, it: Call, want: str) -> Expression:
    """`rotate` about a line, `ptlined` and `specularbrdf`."""
    kinds = FORMULAS[it.name]
    if it.arguments and type_of(work, it.arguments[0]) == "matrix":
        raise Refused(it.at, "matrices")
    given(it, len(kinds), len(kinds))
    work.tell(SAME, it.at, f"`{it.name}` written as a function")
    return work.of_library(it.name, *(values.converted(work, one, kind) for one, kind in zip(it.arguments, kinds)))


@lowers("setcomp", "setxcomp", "setycomp", "setzcomp")
def setcomp(work: Work, it: Call, want: str) -> Expression:
    """`setcomp` and its like: three values, of which one is new."""
    many = it.name == "setcomp"
    given(it, 3 if many else 2, 3 if many else 2)
    target = it.arguments[0]
    index = values.converted(work, it.arguments[1], "float") if many else Number(str("xyz".index(it.name[3])))
    kind = type_of(work, target)
    if kind not in TRIPLES:
        raise Refused(it.at, f"`{it.name}` of what isn't three values")
    work.tell(SAME, it.at, f"`{it.name}` as an assignment of three values")
    old = values.expression(work, target)
    new = values.converted(work, it.arguments[-1], "float")
    place = constant(index)
    if place is None:
        index, new = values.named(work, index), values.named(work, new)
        tests = (Infix("==", Call("floor", (index,)), Number(str(one)), at=it.at) for one in range(3))
        parts: tuple[Expression, ...] = tuple(Choice(test, new, part(work, old, one), at=it.at) for one, test in enumerate(tests))
    else:
        parts = tuple(new if one == int(place) else part(work, old, one) for one in range(3))
    calls.assign(work, Set("=", target, Parts(kind, None, parts, at=it.at), at=it.at))
    return ZERO


@lowers("bump")
def bump(work: Work, it: Call, want: str) -> Expression:
    """`bump`, whose maps nobody makes any more."""
    raise Refused(it.at, "`bump`")


@lowers("arraylength")
def arraylength(work: Work, it: Call, want: str) -> Expression:
    """How many elements an array has."""
    given(it, 1, 1)
    held = work.known(it.arguments[0].name) if isinstance(it.arguments[0], Name) else None
    work.tell(SAME, it.at, "`arraylength` as its number")
    return Number(str(len(held.elements) if held else 0), at=it.at)
