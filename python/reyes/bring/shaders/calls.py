"""Calls: the profile's own functions with the arguments that they take, and a table of what stands for the others."""
from __future__ import annotations

from reyes.bring.shaders import arrays, in_place, library, values
from reyes.bring.shaders.table import TABLE, ZERO, given
from reyes.bring.shaders.tree import Call, Cast, Expression, Item, Name, Number, Parts, Refused, Set, String
from reyes.bring.shaders.types import LETTERS, NATIVE, constant, of_all, part, type_of
from reyes.bring.shaders.work import PLACES, SAME, TRIPLES, Work

# Those of the profile that take floats alone, and that other renderers take of colours and points too, part by part.
BY_PARTS = ("sin", "cos", "tan", "sqrt", "inversesqrt", "exp", "log", "radians", "degrees", "pow", "step", "smoothstep")
MATRICES = ("determinant", "mtransform", "translate", "scale")


def lowered(work: Work, it: Call, want: str) -> Expression:
    """A call's value in the words of the profile."""
    if it.name in work.todo:
        return in_place.put(work, it, want)
    if it.name in work.kept:
        return kept(work, it)
    if it.name in TABLE:
        return TABLE[it.name](work, it, want)
    if it.name in NATIVE:
        return native(work, it, want)
    if it.name.startswith(library.PREFIX) and it.name in library.functions():
        return Call(work.need(it.name[len(library.PREFIX):]), tuple(values.value(work, one) for one in it.arguments), at=it.at)
    if it.name in MATRICES:
        raise Refused(it.at, "matrices")
    raise Refused(it.at, f"function `{it.name}` isn't known")


def floats(work: Work, it: Call) -> list[Expression]:
    """The arguments of a call as floats."""
    return [values.converted(work, one, "float") for one in it.arguments]


def kept(work: Work, it: Call) -> Expression:
    """A call of a function that stays as it is."""
    function = work.kept[it.name]
    given(it, len(function.formals), len(function.formals))
    return Call(it.name, tuple(values.converted(work, one, own.type) for one, own in zip(it.arguments, function.formals)), at=it.at)


def native(work: Work, it: Call, want: str) -> Expression:
    """A call of one of the profile's own functions."""
    letters = NATIVE[it.name][0]
    wants = [LETTERS[one] or (want if want == "float" else "") for one in letters]
    wants += wants[-1:] * len(it.arguments)
    if it.name == "mix":
        wants[2] = "float"
    row = list(it.arguments)
    further = next((place for place, one in enumerate(row) if isinstance(one, String)), 0)
    if further:
        work.tell("!", it.at, f"further parameters of `{it.name}` left out")
        row = row[:further]
    found = [values.value(work, one, own) for one, own in zip(row, wants)]
    if it.name not in ("xcomp", "ycomp", "zcomp"):
        found = [values.as_type(work, one, own) if own in PLACES else one for one, own in zip(found, wants)]
    if it.name in ("Du", "Dv", "calculatenormal") and work.kind in ("light", "volume"):
        raise Refused(it.at, f"`{it.name}` in a {work.kind}")
    if it.name in ("ambient", "diffuse", "specular") and work.kind != "surface":
        work.tell("!", it.at, f"`{it.name}` in a {work.kind} taken as black")
        return Cast("color", None, ZERO, at=it.at)
    if it.name in BY_PARTS and any(type_of(work, one) in TRIPLES for one in found):
        return by_parts(work, it, found)
    if "A" in letters and len({"color"} & {type_of(work, one) for one in found}) and any(type_of(work, one) in PLACES for one in found):
        found = [values.as_type(work, one, "color") for one in found]
    if it.name in ("min", "max") and len(found) > 3:
        work.tell(SAME, it.at, f"`{it.name}` of more than three values as several")
        while len(found) > 3:
            found = [Call(it.name, tuple(found[:3]), at=it.at), *found[3:]]
    return components(work, it, found)


def components(work: Work, it: Call, found: list[Expression]) -> Expression:
    """A native call, where parts are asked for of colours and points alike."""
    kind = type_of(work, found[0]) if found else ""
    if it.name in ("xcomp", "ycomp", "zcomp") and kind == "color":
        work.tell(SAME, it.at, "the parts of a colour by `comp`")
        return part(work, found[0], "xyz".index(it.name[0]))
    if it.name == "comp" and kind in PLACES:
        place = constant(found[1]) if len(found) > 1 else None
        if place is None:
            raise Refused(it.at, "`comp` of a point at a place that isn't a number")
        work.tell(SAME, it.at, "the parts of a point by `xcomp` and its like")
        return part(work, found[0], max(0, min(2, int(place))))
    return Call(it.name, tuple(found), at=it.at)


def by_parts(work: Work, it: Call, found: list[Expression]) -> Expression:
    """A function of floats, taken of each part of its arguments."""
    work.tell(SAME, it.at, f"`{it.name}` of three values taken part by part")
    kind = of_all(work, found)
    simple = [values.named(work, one) for one in found]
    rows = (tuple(part(work, one, place) for one in simple) for place in range(3))
    return Parts(kind, None, tuple(Call(it.name, row, at=it.at) for row in rows), at=it.at)


def assign(work: Work, it: Set) -> None:
    """An assignment, as a statement."""
    target = it.target
    if isinstance(target, Item):
        arrays.set_element(work, it, target)
        return
    if not isinstance(target, Name):
        raise Refused(it.at, "an assignment to what is no variable")
    held = work.known(target.name)
    if held is None:
        raise Refused(target.at, f"variable `{target.name}` isn't known in a {work.kind}")
    if held.elements:
        arrays.set_all(work, it, held)
        return
    if held.type == "matrix":
        raise Refused(it.at, "matrices")
    value = values.converted(work, it.value, held.type)
    if held.type == "string":
        work.may_be(target.name, value)
    work.set(target.name, value, it.at, it.sign)


def effect(work: Work, it: Call) -> None:
    """A call for what it does: its value is dropped."""
    if it.name in work.todo:
        in_place.put(work, it, "")
        return
    found = values.expression(work, it)
    if it.name not in TABLE and it.name not in ("noise",) and not isinstance(found, (Number, String)):
        work.tell(SAME, it.at, f"a call of `{it.name}` whose value isn't used left out")
