"""Which parameter of a request's list the codes S5 and B2 mean, and what is wrong with it: the program names the request's place alone."""
from __future__ import annotations

from collections.abc import Iterable, Iterator, Mapping

from reyes import explain, rib, shader

WIDTHS = {"float": 1, "color": 3, "point": 3, "vector": 3, "normal": 3, "string": 1}
COLOURS, POINTS = ("lightcolor", "specularcolor", "background"), ("from", "to")
FLOATS = "Ka Kd Ks Kr roughness intensity coneangle conedeltaangle beamdistribution mindistance maxdistance distance amplitude fov s t".split()
START = {
    **dict.fromkeys(FLOATS, "float"), **dict.fromkeys(("Cs", "Os", *COLOURS), "color"), **dict.fromkeys(("P", *POINTS), "point"),
    "texturename": "string", "N": "normal",
}
LISTED = ("Surface", "Displacement", "Atmosphere", "LightSource", "Projection")


def fault(request: rib.Request, before: Iterable[rib.Request], text: bytes, code: str) -> tuple[rib.Token, str] | None:
    """The token that a code means in a request's list, and what is wrong; None where that can't be said. `text` is that of its shader."""
    if request.name not in LISTED:
        return None
    known = {**START, **dict(_declared(before))}
    wanted = _parameters(request, text) if code == "B2" else {}
    for token, values in pairs(request):
        words = str(token.value).split()
        name = (words or [""])[-1]
        kind = words[-2] if len(words) > 1 else known.get(name, "")
        if code == "S5" and kind in WIDTHS and len(values) != WIDTHS[kind]:
            what = "string" if kind == "string" else "number"
            return token, f"{name!r} is a {kind}, of {_count(WIDTHS[kind], what)}, and gets {_count(len(values), what)}"
        if code == "B2" and wanted.get(name, kind) != kind and kind:
            return token, f"{name!r} is a {wanted[name]} in the shader, and a {kind} here"
    return None


def pairs(request: rib.Request) -> Iterator[tuple[rib.Token, list[rib.Token]]]:
    """The tokens of a shader request's list, each with its values, those of an array one by one."""
    groups: list[list[rib.Token]] = []
    depth = 0
    for it in request.arguments:
        if it.kind == "close":
            depth -= 1
        elif depth == 0:
            groups.append([] if it.kind == "open" else [it])
        else:
            groups[-1].append(it)
        depth += it.kind == "open"
    first = 2 if request.name == "LightSource" else 1
    for head, values in zip(groups[first::2], groups[first + 1 :: 2]):
        if len(head) == 1 and head[0].kind == "string":
            yield head[0], values


def _declared(before: Iterable[rib.Request]) -> Iterator[tuple[str, str]]:
    """The names that requests declare, with their types."""
    for it in before:
        words = [str(token.value) for token in it.arguments] if it.name == "Declare" else []
        if len(words) == 2 and words[1].split():
            yield words[0], words[1].split()[-1]


def _parameters(request: rib.Request, text: bytes) -> dict[str, str]:
    """The types of the parameters of the shader that a request names: of its text, else of the stock."""
    found = shader.declared(text)
    if found is not None:
        return {it.name: it.type for it in found.parameters}
    name = str(request.arguments[0].value) if request.arguments else ""
    types: Mapping[str, str] = {**dict.fromkeys(COLOURS, "color"), **dict.fromkeys(POINTS, "point"), "texturename": "string"}
    return {it: types.get(it, "float") for it in explain.parameters(name)}


def _count(number: int, what: str) -> str:
    return f"{number or 'no'} {what}{'s' * (number != 1)}"
