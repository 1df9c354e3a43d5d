"""Colours in other spaces than rgb."""
from __future__ import annotations

from reyes.bring.shaders import values
from reyes.bring.shaders.table import given, lowers
from reyes.bring.shaders.tree import Call, Expression, Place, Refused, String
from reyes.bring.shaders.work import NEAR, SAME, Work

# The spaces that the standard names, with how much is lost: hsv, hsl and YIQ are turned exactly; XYZ by the primaries of sRGB.
SPACES = {"hsv": SAME, "hsl": SAME, "yiq": SAME, "ntsc": SAME, "xyz": NEAR, "ciexyz": NEAR}
SHORT = {"ntsc": "yiq", "ciexyz": "xyz"}


def _space(work: Work, space: str, at: Place) -> str:
    """A space's name as the library's functions have it. Raises Refused where there is none."""
    name = space.lower()
    if name not in SPACES:
        raise Refused(at, f"the colour space \"{space}\"")
    work.tell(SPACES[name], at, f"colours of \"{space}\" turned into rgb by a function" + (", by sRGB's primaries" if SPACES[name] == NEAR else ""))
    return SHORT.get(name, name)


def to_rgb(work: Work, space: str, colour: Expression, at: Place) -> Expression:
    """A colour of a space as rgb."""
    return colour if space.lower() == "rgb" else work.of_library("from_" + _space(work, space, at), values.as_type(work, colour, "color"))


@lowers("ctransform")
def transformed(work: Work, it: Call, want: str) -> Expression:
    """`ctransform` from one space to another, the first being rgb where one alone is named."""
    given(it, 2, 3)
    names = [values.written_out(work, one) for one in it.arguments[:-1]]
    words = [one.words for one in names if isinstance(one, String)]
    if len(words) != len(it.arguments) - 1:
        raise Refused(it.at, "a colour space that isn't written out")
    found = values.converted(work, it.arguments[-1], "color")
    source, target = words if len(words) == 2 else ["rgb", words[0]]
    found = to_rgb(work, source, found, it.at)
    if source.lower() == "rgb" and target.lower() == "rgb":
        work.tell(SAME, it.at, "`ctransform` from rgb to rgb left out")
    if target.lower() == "rgb":
        return found
    return work.of_library("to_" + _space(work, target, it.at), found)
