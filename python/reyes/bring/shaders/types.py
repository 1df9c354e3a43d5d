"""The types of expressions, and the built-in functions that the profile has."""
from __future__ import annotations

from collections.abc import Iterable

from reyes.bring.shaders import library
from reyes.bring.shaders.tree import Call, Cast, Choice, Expression, Infix, Item, Name, Number, Parts, Prefix, Set, String
from reyes.bring.shaders.work import PLACES, PREDEFINED, Work

CONDITIONS = ("<", ">", "<=", ">=", "==", "!=", "&&", "||")

# The functions of the profile: what each argument has to be, and what it gives. F is a float, C a colour, V, P and N a vector, point and
# normal, and A the type of the first argument that is no float.
NATIVE: dict[str, tuple[str, str]] = {
    **dict.fromkeys(("abs", "sign", "floor", "ceil", "round"), ("A", "A")),
    **dict.fromkeys(("min", "max"), ("AAA", "A")),
    **dict.fromkeys(("clamp", "mix"), ("AAA", "A")),
    "mod": ("AA", "A"),
    **dict.fromkeys(("sin", "cos", "tan", "sqrt", "inversesqrt", "exp", "log", "radians", "degrees"), ("F", "F")),
    **dict.fromkeys(("pow", "step"), ("FF", "F")),
    "smoothstep": ("FFF", "F"),
    **dict.fromkeys(("xcomp", "ycomp", "zcomp", "length"), ("V", "F")),
    "distance": ("PP", "F"),
    "normalize": ("V", "V"),
    "reflect": ("VV", "V"),
    "faceforward": ("VVV", "V"),
    "comp": ("CF", "F"),
    "depth": ("P", "F"),
    "Du": ("A", "A"),
    "Dv": ("A", "A"),
    "calculatenormal": ("P", "N"),
    "ambient": ("", "C"),
    "diffuse": ("V", "C"),
    "specular": ("VVF", "C"),
}
LETTERS = {"F": "float", "C": "color", "V": "vector", "P": "point", "N": "normal", "A": ""}
# What other functions give, the profile's and the standard's.
OTHERS = {
    **dict.fromkeys("noise cellnoise pnoise asin acos atan random depth area filterstep fresnel phongs ptlined arraylength".split(), "float"),
    **dict.fromkeys("shadow occlusion Deriv match filterwidth determinant".split(), "float"),
    **dict.fromkeys("texture environment trace specularbrdf phong ctransform indirectdiffuse transmission subsurface caustic".split(), "color"),
    **dict.fromkeys("photonmap visibility".split(), "color"),
    **dict.fromkeys("concat format shadername".split(), "string"),
    **dict.fromkeys("transform rotate".split(), "point"),
    "vtransform": "vector", "ntransform": "normal", "refract": "vector", "bump": "normal",
}


def type_of(work: Work, it: Expression) -> str:
    """The type of an expression: a type's word, "bool" of a condition, or "" of one that isn't known."""
    match it:
        case Number():
            return "float"
        case String():
            return "string"
        case Name(name):
            held = work.known(name)
            return held.type if held else PREDEFINED.get(name, "float")
        case Item(value):
            return type_of(work, value)
        case Parts(kind, _, values):
            return "matrix" if kind == "matrix" or len(values) == 16 else kind or "point"
        case Cast(kind):
            return kind
        case Prefix(sign, value):
            return "bool" if sign == "!" else type_of(work, value)
        case Set(_, target):
            return type_of(work, target)
        case Choice(_, yes, no):
            return wider(type_of(work, yes), type_of(work, no))
        case Infix(sign, left, right):
            return _of_infix(work, sign, left, right)
        case Call():
            return _of_call(work, it)
    return "float"


def wider(*types: str) -> str:
    """The type of what is made of parts of these types: the first that is no float."""
    return next((it for it in types if it not in ("float", "", "bool")), "float")


def _of_infix(work: Work, sign: str, left: Expression, right: Expression) -> str:
    """The type of two values and a sign."""
    if sign in CONDITIONS:
        return "bool"
    if sign == ".":
        return "float"
    if sign == "^":
        return "vector"
    return wider(type_of(work, left), type_of(work, right))


def of_all(work: Work, values: Iterable[Expression]) -> str:
    """The first type of some values that is no float, or "float"."""
    return wider(*(type_of(work, it) for it in values))


def _of_call(work: Work, it: Call) -> str:
    """The type of a call."""
    function = work.todo.get(it.name) or work.kept.get(it.name) or work.used.get(it.name)
    if function is None and it.name.startswith(library.PREFIX):
        function = library.functions().get(it.name)
    if function is not None:
        return function.type
    if it.name in NATIVE:
        letter = NATIVE[it.name][1]
        if letter != "A":
            return LETTERS[letter]
        found = of_all(work, it.arguments)
        return "vector" if it.name in ("Du", "Dv") and found in PLACES else found
    if it.name == "spline":
        return of_all(work, [one for one in it.arguments[1:] if not isinstance(one, String)])
    return OTHERS.get(it.name, "float")


def part(work: Work, it: Expression, place: int) -> Expression:
    """One of the three parts of a value; a float is the same in all."""
    kind = type_of(work, it)
    if kind == "color":
        return Call("comp", (it, Number(str(place))), at=it.at)
    if kind in PLACES:
        return Call("xyz"[place] + "comp", (it,), at=it.at)
    return it


def constant(it: Expression | None) -> float | None:
    """The number that an expression of numbers alone is, or None."""
    match it:
        case Number(text):
            return float(text)
        case Prefix("-", value):
            inner = constant(value)
            return None if inner is None else -inner
        case Cast("float", None, value):
            return constant(value)
        case Infix(sign, left, right):
            a, b = constant(left), constant(right)
            if a is None or b is None:
                return None
            return _computed(sign, a, b)
    return None


def _computed(sign: str, a: float, b: float) -> float | None:
    """Two numbers and the sign between them."""
    match sign:
        case "+":
            return a + b
        case "-":
            return a - b
        case "*":
            return a * b
        case "/":
            return a / b if b else 0.0
    return None
