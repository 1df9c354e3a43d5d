"""Expressions in the words of the profile. What an expression needs done before it is put as statements before the one it stands in."""
from __future__ import annotations

from functools import partial

from reyes.bring.shaders import arrays, calls, colours, noises, spaces
from reyes.bring.shaders.tree import (
    Call, Cast, Choice, Do, Expression, If, Infix, Item, Items, Name, Number, Parts, Place, Prefix, Refused, Set, String, block,
    declared, targets,
)
from reyes.bring.shaders.types import CONDITIONS, part, type_of
from reyes.bring.shaders.work import LEFT, NEAR, PLACES, SAME, TRIPLES, Work

# What a variable of the standard is where the profile has none of its kind.
ABSENT = {"time": "0", "dtime": "0", "ncomps": "3", "alpha": "1"}
# What is known in a statement over lights alone.
OVER_LIGHTS = {"surface": ("L", "Cl"), "light": ("L",)}
SMALLEST = "0.0000152587890625"
GREATEST = 32768.0
# what is greater than this is meant as without end
ENDLESS = 1e9


def value(work: Work, it: Expression, want: str = "") -> Expression:
    """An expression as a value: 1 or 0 of a condition. `want` is the type that it goes into, where that settles what it is."""
    found = expression(work, it, want)
    if type_of(work, found) != "bool":
        return found
    work.tell(SAME, it.at, "a condition as a value written as 1 or 0")
    return Choice(found, Number("1"), Number("0"), at=it.at)


def condition(work: Work, it: Expression) -> Expression:
    """An expression as a condition: a number holds where it isn't 0."""
    found = expression(work, it, "float")
    if type_of(work, found) == "bool":
        return found
    work.tell(SAME, it.at, "a number as a condition compared with 0")
    return Infix("!=", found, Number("0"), at=it.at)


def converted(work: Work, it: Expression, kind: str) -> Expression:
    """A value that goes into a variable of that type."""
    if isinstance(it, Items):
        raise Refused(it.at, "values in braces where one value is wanted")
    return as_type(work, value(work, it, kind), kind)


def as_type(work: Work, it: Expression, kind: str) -> Expression:
    """A lowered value as that type: colours and points stand for each other part by part."""
    own = type_of(work, it)
    if (kind == "color" and own in PLACES) or (kind in PLACES and own == "color"):
        work.tell(SAME, it.at, "colours and points in place of each other written part by part")
        simple = named(work, it)
        return Parts(kind, None, tuple(part(work, simple, place) for place in range(3)), at=it.at)
    if kind == "float" and own in TRIPLES:
        work.tell(NEAR, it.at, "the first part taken of three, where one is wanted")
        return part(work, it, 0)
    return it


def as_part(work: Work, it: Expression, at: Place) -> Expression:
    """The first part of a look-up."""
    return Cast("float", None, it, at=at) if isinstance(it, Call) else part(work, it, 0)


def named(work: Work, it: Expression) -> Expression:
    """The value, in a variable where it is more than a name or a number."""
    if isinstance(it, (Name, Number, String)):
        return it
    return work.temporary("part", type_of(work, it), it, it.at)


def expression(work: Work, it: Expression, want: str = "") -> Expression:
    """An expression; of a condition it stays one."""
    match it:
        case Number():
            return _number(work, it)
        case String():
            return _string(work, it)
        case Name():
            return _name(work, it)
        case Item():
            return arrays.element(work, it)
        case Prefix(sign, inner):
            return Prefix(sign, condition(work, inner) if sign == "!" else value(work, inner, want), at=it.at)
        case Infix():
            return _infix(work, it, want)
        case Choice():
            return _choice(work, it, want)
        case Set():
            work.tell(SAME, it.at, "an assignment in an expression put before it")
            calls.assign(work, it)
            return expression(work, it.target, want)
        case Cast():
            return _cast(work, it)
        case Parts():
            return _parts(work, it, want)
        case Call():
            return calls.lowered(work, it, want)
    raise Refused(it.at, "values in braces where one value is wanted")


def _number(work: Work, it: Number) -> Expression:
    """A number; the profile's end at 32768, and the least above 0 is 1/65536."""
    if 0.0 < float(it.text) < 0.5 / 65536:
        work.tell(NEAR, it.at, f"{it.text} taken as 1/65536, the least number above 0")
        return Number(SMALLEST, at=it.at)
    if GREATEST < float(it.text) < ENDLESS:
        work.tell(NEAR, it.at, f"{it.text} taken as 32768, the greatest number")
        return Number("32768", at=it.at)
    return it


def _string(work: Work, it: String) -> Expression:
    """A string; the profile's hold ASCII and few escapes."""
    kept = it.text.replace("\\\n", "")
    kept = "".join(one if " " <= one <= "~" or one in "\t\n" else "?" for one in kept)
    if kept != it.text:
        work.tell(LEFT, it.at, "bytes of a string that the profile hasn't written as ?")
        return String(kept, at=it.at)
    return it


def _name(work: Work, it: Name) -> Expression:
    """A variable."""
    held = work.known(it.name)
    if held is None:
        if it.name in ABSENT:
            kind = NEAR if it.name in ("time", "dtime") else SAME
            work.tell(kind, it.at, f"`{it.name}` taken as {ABSENT[it.name]}")
            return Number(ABSENT[it.name], at=it.at)
        if it.name == "dPdtime":
            work.tell(NEAR, it.at, "`dPdtime` taken as 0")
            return Cast("vector", None, Number("0"), at=it.at)
        raise Refused(it.at, f"variable `{it.name}` isn't known in a {work.kind}")
    if it.name in OVER_LIGHTS.get(work.kind, ()) and not work.over and not any(it.name in scope for scope in work.scopes):
        work.tell(LEFT, it.at, f"`{it.name}` outside of a statement over lights taken as 0")
        return Cast(held.type, None, Number("0"), at=it.at)
    if held.elements:
        raise Refused(it.at, f"the array `{it.name}` where one value is wanted")
    if held.type == "matrix":
        raise Refused(it.at, "matrices")
    return it


def written_out(work: Work, it: Expression) -> Expression:
    """A string where the profile wants it written out: of a variable that nothing assigns to, what it stands for."""
    found = expression(work, it)
    held = work.known(found.name) if isinstance(found, Name) else None
    if held is None or held.value is None:
        return found
    work.tell(SAME, it.at, "a string in a variable written out")
    return held.value


def _infix(work: Work, it: Infix, want: str) -> Expression:
    """Two values and a sign."""
    if it.sign in ("&&", "||"):
        return Infix(it.sign, condition(work, it.left), condition(work, it.right), at=it.at)
    wants = want if want == "float" else ""
    if it.sign in (".", "^"):
        wants = "vector"
    elif it.sign in CONDITIONS:
        wants = "float" if "float" in (type_of(work, it.left), type_of(work, it.right)) else ""
    left, right = value(work, it.left, wants), value(work, it.right, wants)
    first, second = type_of(work, left), type_of(work, right)
    if it.sign != "." and it.sign != "^" and {first, second} & set(PLACES) and "color" in (first, second):
        left, right = as_type(work, left, "color"), as_type(work, right, "color")
    elif it.sign in (".", "^"):
        left, right = (as_type(work, one, "vector") for one in (left, right))
    return Infix(it.sign, left, right, at=it.at)


def _choice(work: Work, it: Choice, want: str) -> Expression:
    """`a ? b : c`; where one of the two assigns to something, they become the two branches of an `if`."""
    test = condition(work, it.condition)
    pairs = [work.valued(partial(value, work, one, want)) for one in (it.yes, it.no)]
    made, rows = [one for one, _ in pairs], [row for _, row in pairs]
    if not any(targets(*row) - set(declared(*row)) for row in rows):
        work.put(*rows[0], *rows[1])
        kinds = {type_of(work, one) for one in made}
        if "color" in kinds and kinds & set(PLACES):
            made = [as_type(work, one, "color") for one in made]
        return Choice(test, made[0], made[1], at=it.at)
    kind = type_of(work, made[0]) if type_of(work, made[0]) != "float" else type_of(work, made[1])
    result = work.temporary("chosen", kind, None, it.at)
    yes, no = (block(*row, Do(Set("=", result, one, at=it.at)), at=it.at) for row, one in zip(rows, made))
    work.put(If(test, yes, no, at=it.at))
    return result


def _cast(work: Work, it: Cast) -> Expression:
    """A type before a value."""
    if it.type in ("matrix", "void", "bool"):
        raise Refused(it.at, "matrices" if it.type == "matrix" else f"`{it.type}` before a value")
    looked_up = it.type == "float" and isinstance(it.value, Call) and it.value.name == "texture"
    found = value(work, it.value, "" if looked_up else it.type)
    own = type_of(work, found)
    if it.type == "color" and it.space is not None and it.space.words != "rgb":
        return colours.to_rgb(work, it.space.words, found, it.at)
    if it.type == "float":
        return _float(work, found, it)
    if noises.is_noise(found):
        return found
    if it.type == "string":
        work.tell(SAME, it.at, f"`{it.type}` before a value that has this type left out")
        return found
    if "color" in (own, it.type) and own in TRIPLES and own != it.type:
        return as_type(work, found, it.type)
    if it.space is not None and it.type in PLACES:
        return spaces.from_space(work, it, found)
    return Cast(it.type, it.space, found, at=it.at)


def _float(work: Work, found: Expression, it: Cast) -> Expression:
    """`float` before a value."""
    if isinstance(found, Call) and found.name == "noise":
        work.tell(SAME, it.at, "`float` before noise left out")
        return found
    if isinstance(found, Cast) and found.type == "float":
        return found
    if type_of(work, found) in TRIPLES and not (isinstance(found, Call) and found.name == "texture"):
        return as_type(work, found, "float")
    return Cast("float", None, found, at=it.at)


def _parts(work: Work, it: Parts, want: str) -> Expression:
    """Three values in parentheses."""
    kind = it.type or (want if want in TRIPLES else "point")
    if len(it.values) == 16 or kind == "matrix":
        raise Refused(it.at, "matrices")
    if len(it.values) != 3 or kind not in TRIPLES:
        raise Refused(it.at, f"{len(it.values)} values where three are wanted")
    if not it.type:
        work.tell(SAME, it.at, f"`{kind}` put before three values")
    found = Parts(kind, it.space, tuple(as_type(work, value(work, one, "float"), "float") for one in it.values), at=it.at)
    if it.space is None or (kind == "color" and it.space.words == "rgb"):
        return found
    if kind == "color":
        return colours.to_rgb(work, it.space.words, Parts("color", None, found.values, at=it.at), it.at)
    return spaces.from_space(work, it, Parts(kind, None, found.values, at=it.at))
