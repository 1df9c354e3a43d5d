"""`spline`: a function with a formal for each value, which picks the piece that a place falls in."""
from __future__ import annotations

from reyes.bring.shaders import arrays, values
from reyes.bring.shaders.lexer import tokens
from reyes.bring.shaders.library import PREFIX
from reyes.bring.shaders.parser import Parser
from reyes.bring.shaders.table import lowers
from reyes.bring.shaders.tree import Call, Expression, Function, Name, Refused, String
from reyes.bring.shaders.types import of_all, type_of
from reyes.bring.shaders.work import SAME, TRIPLES, Work

# Each basis: how many values lie between the first ones of two pieces, and a piece of four values at f from 0 to 1.
BASES = {
    "catmull-rom": (1, "b + 0.5 * f * (c - a + f * (2 * a - 5 * b + 4 * c - d + f * (3 * (b - c) + d - a)))"),
    "b-spline": (1, "(a + 4 * b + c + f * (3 * (c - a) + f * (3 * (a - 2 * b + c) + f * (3 * (b - c) + d - a)))) / 6"),
    "bezier": (3, "a + f * (3 * (b - a) + f * (3 * (a - 2 * b + c) + f * (3 * (b - c) + d - a)))"),
    "hermite": (2, "a + f * (b + f * (3 * (c - a) - 2 * b - d + f * (2 * (a - c) + b + d)))"),
    "linear": (1, "b + f * (c - b)"),
}
SAME_AS = {"catmullrom": "catmull-rom", "catrom": "catmull-rom", "bspline": "b-spline"}
MOST = 100


@lowers("spline")
def spline(work: Work, it: Call, want: str) -> Expression:
    """A spline in a basis, through values or an array of them."""
    row = list(it.arguments)
    basis = "catmull-rom"
    if row and type_of(work, row[0]) == "string":
        words = values.written_out(work, row.pop(0))
        if not isinstance(words, String):
            raise Refused(it.at, "`spline` in a basis that isn't written out")
        basis = SAME_AS.get(words.words.lower(), words.words.lower())
    if basis not in BASES:
        raise Refused(it.at, f"`spline` in the basis \"{basis}\"")
    if not row:
        raise Refused(it.at, "`spline` of no values")
    place = values.converted(work, row.pop(0), "float")
    held = arrays.array(work, row[0]) if len(row) == 1 else None
    if held is not None:
        found: list[Expression] = [Name(one, at=it.at) for one in held.elements]
    else:
        found = [values.value(work, one, want) for one in row]
    step = BASES[basis][0]
    if not 4 <= len(found) <= MOST or (len(found) - 4) % step:
        raise Refused(it.at, f"`spline` of {len(found)} values in the basis \"{basis}\"")
    kind = of_all(work, found)
    if kind not in TRIPLES:
        kind = "float"
    work.tell(SAME, it.at, "`spline` written as a function of its pieces")
    name = _function(work, basis, kind, len(found))
    return Call(name, (place, *(values.as_type(work, one, kind) for one in found)), at=it.at)


def _function(work: Work, basis: str, kind: str, count: int) -> str:
    """Makes the function of a basis for that many values be written with the shader, and gives its name."""
    name = f"{PREFIX}spline_{basis.replace('-', '_')}_{kind}_{count}"
    if name not in work.used:
        work.used[name] = _text(name, basis, kind, count)
    return name


def _text(name: str, basis: str, kind: str, count: int) -> Function:
    """The function of a basis for that many values."""
    step, form = BASES[basis]
    pieces = (count - 4) // step + 1
    formals = ", ".join(f"c{place}" for place in range(count))
    row = [f"{kind} {name}(float x; {kind} {formals}) {{", f"float y = clamp(x, 0, 1) * {pieces};", f"float k = min(floor(y), {pieces - 1});"]
    row += ["float f = y - k;", f"{kind} a = c0, b = c1, c = c2, d = c3;"]
    for piece in range(1, pieces):
        sets = " ".join(f"{own} = c{piece * step + place};" for place, own in enumerate("abcd"))
        row.append(f"if (k == {piece}) {{ {sets} }}")
    return Parser(tokens("\n".join([*row, f"return {form};", "}"]), "a spline")).function()
