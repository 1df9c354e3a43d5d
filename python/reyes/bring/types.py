"""Types and classes of variables that the profile doesn't have: in lists of primitives, and in `Declare`."""
from __future__ import annotations

from dataclasses import replace

import numpy as np

from . import variables
from .changes import LEFT, NEAR, SAME
from .text import Argument, Floats, Request
from .variables import Kind, Variable
from .work import Work

LISTS = {"Sphere": -1, "Cylinder": -1, "Cone": -1, "Disk": -1, "Polygon": 0, "PointsPolygons": 2, "Patch": 1, "PatchMesh": 5}


def start_of(request: Request) -> int:
    """The place at which a primitive's list begins."""
    start = LISTS[request.name]
    return start if start >= 0 else next((at for at, it in enumerate(request.args) if not isinstance(it, (float, np.ndarray))), len(request.args))


def is_read(token: str, kind: Kind | None, name: str) -> bool:
    """Whether the profile reads a token as it stands."""
    if name == "st":
        return token == "st" and kind is not None and kind.of in ("varying", "vertex")
    if kind is None or not kind.is_native() or len(token.split()) == 1 and name in variables.STANDARD:
        return False
    return name not in variables.FIXED or kind.type.replace("integer", "float") == variables.FIXED[name]


def wanted(request: Request, of: str, points: int) -> int | None:
    """How many values a variable of a class has on a primitive of so many points; None where that isn't looked at here."""
    name = request.name
    if name == "PatchMesh":
        return None
    if of == "constant" or of == "uniform" and name != "PointsPolygons":
        return 1
    if name == "PointsPolygons":
        return {"uniform": len(request.array(0)), "facevarying": int(request.array(0).sum())}.get(of, points)
    return points if name == "Polygon" else 4


def fits(request: Request, kind: Kind, value: Argument, points: int) -> bool:
    """Whether a value has as many numbers or strings as its class asks for."""
    count = wanted(request, kind.of, points)
    found = len(variables.floats(value)) / kind.width if kind.type != "string" else len(variables.strings(value))
    return count is None or found == count


def in_profile(work: Work, request: Request) -> list[Request] | None:
    """A primitive with variables of the profile's types and classes alone."""
    start = start_of(request)
    bicubic = request.name in ("Patch", "PatchMesh") and request.word(0) == "bicubic"
    changed, row = False, list[Argument]()
    given = variables.pairs(request.args[start:])
    points = next((len(variables.floats(value)) // 3 for token, value in given if token.split()[-1:] == ["P"]), 0)
    for token, value in given:
        name, kind = variables.token_of(token, work.declared)
        wrong_class = bicubic and kind is not None and kind.of == "vertex" and name != "P"
        if is_read(token, kind, name) and not wrong_class:
            made: list[Argument] | None = None
            if name != "P" and kind is not None and not fits(request, kind, value, points):
                made = left_out(work, request, name, f"which hasn't as many values as `{kind.of}` asks for")
            changed = changed or made is not None
            row += [token, value] if made is None else made
            continue
        made = one(work, request, variables.variable(token, value, work.declared), token, name)
        changed = changed or made is not None
        row += [token, value] if made is None else made
    if not changed:
        return None
    return [request.made(request.name, *request.args[:start], *row)]


def one(work: Work, request: Request, it: Variable | None, token: str, name: str) -> list[Argument] | None:
    """A variable in the profile's types, no arguments where it is left out, None where it stays as it stands."""
    if name in ("width", "constantwidth"):
        work.tell(SAME, request, "a width, which only curves and points have, taken out")
        return []
    if it is None:
        return left_out(work, request, name, "which isn't declared or has no value of its type")
    kind = it.kind
    if name == "st" and kind.width == 2:
        work.tell(SAME, request, "`float[2] st` turned into `st`, or into `s` and `t` where it is by the corners of faces")
        return variables.put([replace(it, kind=replace(kind, of=kind.of.replace("facevertex", "facevarying")))])
    if name in ("P", "Pw") and kind.width == 4:
        points = variables.points_of({name: it})
        work.tell(SAME, request, "homogeneous points divided by their weights")
        return ["P", points.ravel()] if points is not None else []
    if name == "Pz" and kind.width == 1:
        return None
    if name == "Np" and kind.width == 3:
        work.tell(SAME, request, "`Np` turned into `uniform normal N`")
        return variables.put([Variable("", "N", Kind("uniform", "normal"), it.values)])
    return native(work, request, it, token)


def native(work: Work, request: Request, it: Variable, token: str) -> list[Argument] | None:
    """A variable whose type or class has a near one in the profile."""
    kind, wanted = it.kind, variables.FIXED.get(it.name)
    if kind.count > 1 or variables.PLAIN.get(kind.type, kind.type) not in variables.NATIVE:
        return left_out(work, request, it.name, f"whose type no shader of the profile has: {kind.type}" + (f"[{kind.count}]" if kind.count > 1 else ""))
    type_ = variables.PLAIN.get(kind.type, kind.type)
    if wanted and type_ != wanted:
        if variables.WIDTHS[type_] != variables.WIDTHS[wanted] or "string" in (type_, wanted):
            return left_out(work, request, it.name, "whose type isn't that of its name")
        type_ = wanted
    of = kind.of
    bicubic = request.word(0) == "bicubic"
    if of == "facevertex":
        if not work.tell(NEAR, request, "class `facevertex` taken as `facevarying`"):
            return None
        of = "facevarying"
    if of == "vertex" and bicubic and it.name != "P":
        return corners(work, request, it, type_)
    if type_ != kind.type:
        work.tell(SAME, request, f"type `{kind.type}` turned into `{type_}`")
    return variables.put([replace(it, kind=Kind(of, type_))])


def left_out(work: Work, request: Request, name: str, why: str) -> list[Argument] | None:
    """Leaves a variable out; nothing is lost by that where no shader in force takes it."""
    taken = work.taken()
    lost = name in taken or name in variables.FIXED
    return [] if work.tell(LEFT if lost else SAME, request, f"variable `{name}` left out, {why}") else None


def corners(work: Work, request: Request, it: Variable, type_: str) -> list[Argument] | None:
    """A vertex variable of a bicubic patch or mesh, as varying: its values at the corners of the patches, and straight between them."""
    if isinstance(it.values, list) or not work.tell(NEAR, request, "vertex variables of bicubic patches taken as varying"):
        return None
    basis = work.state.attributes.basis
    sizes = (4, 4) if request.name == "Patch" else (request.whole(1)[0], request.whole(3)[0])
    around = (False, False) if request.name == "Patch" else (request.word(2) == "periodic", request.word(4) == "periodic")
    if len(it) != sizes[0] * sizes[1]:
        return left_out(work, request, it.name, "whose values aren't as many as the points")
    rows = it.numbers().reshape(sizes[1], sizes[0], -1)
    for axis, matrix, step, size, periodic in ((1, basis.u, basis.u_step, sizes[0], around[0]), (0, basis.v, basis.v_step, sizes[1], around[1])):
        rows = np.swapaxes(along(np.swapaxes(rows, 0, axis), matrix, step, size, periodic), 0, axis)
    return variables.put([Variable("", it.name, Kind("varying", type_), rows.reshape(-1, rows.shape[-1]))])


def along(rows: Floats, matrix: Floats, step: int, size: int, periodic: bool) -> Floats:
    """The values at the ends of the pieces of a spline along the first axis."""
    if periodic:
        pieces = size // step
        places = (np.arange(pieces)[:, None] * step + np.arange(4)) % size
        around: Floats = np.einsum("k,pk...->p...", matrix[3], rows[places])
        return around
    pieces = (size - 4) // step + 1
    places = np.arange(pieces)[:, None] * step + np.arange(4)
    begins = np.einsum("k,pk...->p...", matrix[3], rows[places])
    end = np.einsum("k,k...->...", matrix.sum(axis=0), rows[places[-1]])
    return np.concatenate([begins, end[None]])


def declare(work: Work, request: Request) -> list[Request] | None:
    """Keeps a declaration in mind, and takes it out where the profile has no such type: what has it is declared where it stands."""
    name, text = request.word(0), request.word(1)
    if name is None or text is None or len(request.args) != 2:
        return None
    kind = variables.kind_of(text)
    if kind is None or not kind.width:
        work.tell(SAME, request, "declarations of unknown types taken out: what is declared so is declared where it stands")
        work.declared.pop(name, None)
        return []
    work.declared[name] = kind
    start = variables.START.get(name)
    if start is not None and (kind.width != start.width or not kind.is_native() and kind.type == start.type):
        work.tell(SAME, request, f"`Declare` of `{name}` taken out: it is declared from the start")
        work.declared[name] = kind if kind.width == start.width else start
        return []
    if kind.is_native():
        return None
    work.tell(SAME, request, "declarations of types that the profile hasn't taken out: what has them is declared where it stands")
    return []


PASSES = {**{name: (in_profile,) for name in LISTS}, "Declare": (declare,)}
