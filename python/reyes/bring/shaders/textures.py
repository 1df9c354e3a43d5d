"""Look-ups of textures in the forms of the standard and of later compilers."""
from __future__ import annotations

from reyes.bring.shaders import arrays, values
from reyes.bring.shaders.table import ONE, lowers
from reyes.bring.shaders.tree import Call, Cast, Do, Expression, If, Infix, Item, Name, Number, Place, Refused, Set, String
from reyes.bring.shaders.types import constant, type_of
from reyes.bring.shaders.work import LEFT, NEAR, SAME, Work


@lowers("texture")
def texture(work: Work, it: Call, want: str) -> Expression:
    """`texture` of a name with a channel or without, of no place, of one, or of four corners, with further parameters."""
    if not it.arguments:
        raise Refused(it.at, "`texture` without a name")
    if work.kind in ("light", "volume"):
        work.tell(LEFT, it.at, f"`texture` in a {work.kind} taken as white")
        return ONE if want == "float" else Cast("color", None, ONE, at=it.at)
    name, channel = it.arguments[0], None
    if isinstance(name, Item) and arrays.array(work, name.value) is None:
        channel, name = constant(name.index), name.value
        if channel is None:
            raise Refused(it.at, "a texture's channel that isn't a number")
        work.tell(SAME, it.at, "a texture's channel taken of its colour")
    found = [values.converted(work, one, "float") for one in _places(work, it)]
    held = values.written_out(work, name)
    if type_of(work, held) != "string":
        raise Refused(it.at, "`texture` of what is no name")
    if isinstance(held, Name) and held.name in work.strings:
        return _channel(work, _of_any(work, held, found, it.at), channel, want, it.at)
    if not isinstance(held, (String, Name)):
        raise Refused(it.at, "`texture` of a name that is made")
    return _channel(work, Call("texture", (held, *found), at=it.at), channel, want, it.at)


def _of_any(work: Work, name: Name, places: list[Expression], at: Place) -> Expression:
    """A look-up of a string that may stand for several: one of each, where the string is equal to it."""
    row = work.strings[name.name]
    if not all(isinstance(one, String) or (isinstance(one, Name) and one.name not in work.strings) for one in row):
        raise Refused(at, "`texture` of a name that is made")
    work.tell(SAME, at, "a texture whose name is in a variable looked up by comparing the name with all that it may be")
    held = [values.named(work, one) for one in places]
    found = work.temporary("looked_up", "color", None, at)
    for one in row:
        call = Do(Set("=", found, Call("texture", (one, *held), at=at), at=at), at=at)
        work.put(If(Infix("==", name, one, at=at), call, None, at=at))
    return found


def _channel(work: Work, found: Expression, channel: float | None, want: str, at: Place) -> Expression:
    """A look-up as a colour, or as one of its parts."""
    if channel is None:
        if want == "float":
            work.tell(SAME, at, "a texture's first channel taken, where a float is wanted")
            return values.as_part(work, found, at)
        return found
    if want == "color":
        if channel != 0:
            work.tell(NEAR, at, "a texture's colour taken from its first channel on")
        return found
    if channel > 2:
        work.tell(LEFT, at, f"channel {int(channel)} of a texture taken as 1: its files have three")
        return ONE
    if channel == 0:
        return values.as_part(work, found, at)
    return Call("comp", (found, Number(str(int(channel)))), at=at)


def _places(work: Work, it: Call) -> tuple[Expression, ...]:
    """The s and t of a look-up: none, one of each, or the middle of four corners."""
    found = list(it.arguments[1:])
    for place, one in enumerate(found):
        if isinstance(one, String) or type_of(work, one) == "string":
            work.tell(NEAR, it.at, "filters and widths of a texture left out: it is filtered by the renderer's own rule")
            found = found[:place]
            break
    if len(found) == 8:
        work.tell(NEAR, it.at, "a texture over four corners looked up in their middle, by the renderer's own filter")
        return tuple(_middle(found[place::2]) for place in (0, 1))
    if not found and work.copies.keys() & {"s", "t"}:
        return tuple(Name(work.copies.get(one, one), at=it.at) for one in "st")
    if len(found) not in (0, 2):
        raise Refused(it.at, f"{len(it.arguments)} arguments of `texture`")
    return tuple(found)


def _middle(row: list[Expression]) -> Expression:
    """The mean of four values."""
    total = Infix("+", Infix("+", row[0], row[1]), Infix("+", row[2], row[3]))
    return Infix("*", total, Number("0.25"), at=row[0].at)


@lowers("concat")
def concat(work: Work, it: Call, want: str) -> Expression:
    """`concat` of strings that are written out."""
    found = [values.written_out(work, one) for one in it.arguments]
    if not all(isinstance(one, String) for one in found):
        raise Refused(it.at, "a string that is made of others")
    work.tell(SAME, it.at, "strings that are written out joined")
    return String('"' + "".join(one.words for one in found if isinstance(one, String)) + '"', at=it.at)


@lowers("format", "match", "shadername")
def strings(work: Work, it: Call, want: str) -> Expression:
    """Strings that are made or searched."""
    raise Refused(it.at, f"strings that are made or searched (`{it.name}`)")
