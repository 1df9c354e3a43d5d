"""The predefined variables that the profile hasn't, or doesn't let be written."""
from __future__ import annotations

from dataclasses import replace

from reyes.bring.shaders.in_place import changed
from reyes.bring.shaders.tree import (
    Block, Cast, Declare, Expression, File, Name, Node, Number, Parts, Place, Refused, String, Variable, declared, renamed, walk,
)
from reyes.bring.shaders.work import LEFT, NEAR, PREDEFINED, READS, SAME, TRIPLES, WRITES, Work

ZERO = Number("0")
# What stands in a light for the variables of a surface that shines.
OF_LIGHT: dict[str, Expression] = {
    "P": Parts("point", String('"shader"'), (ZERO, ZERO, ZERO)),
    **dict.fromkeys(("N", "Ng"), Parts("normal", String('"shader"'), (ZERO, ZERO, Number("1")))),
    **dict.fromkeys(("s", "t", "u", "v", "du", "dv"), ZERO),
    **dict.fromkeys(("dPdu", "dPdv", "I"), Cast("vector", None, ZERO)),
    **dict.fromkeys(("Cs", "Os"), Cast("color", None, Number("1"))),
}
SETTLED = ("PI", "time", "dtime", "ncomps", "alpha", "dPdtime")


def settled(work: Work, file: File) -> File:
    """The file with other words for the predefined variables that its kind of shader hasn't."""
    file = _unhidden(work, file)
    shader = file.shader
    hidden = {it.name for it in shader.formals} | set(declared(shader.body))
    written = changed(work, shader.body)
    used: dict[str, Place] = {}
    for function in file.functions:
        names = set(declared(function))
        written |= changed(work, function.body) - names
        _names(function.body, names, used)
    _names(shader.body, hidden, used)
    table: dict[str, Expression] = {}
    first: list[Declare] = []
    for it in shader.formals:
        if it.type == "string" and it.length is None and it.name in written:
            work.tell(SAME, it.at, f"the string `{it.name}`, which is assigned to, copied")
            own = work.fresh(it.name)
            table[it.name] = Name(own, at=it.at)
            first.append(Declare("uniform", False, "string", (Variable(own, None, Name(it.name, at=it.at), at=it.at),), at=it.at))
    for name in sorted(used):
        if name in PREDEFINED and name not in SETTLED and name not in hidden:
            _one(work, name, used[name], name in written, table, first)
    if not table:
        return file
    functions = tuple(renamed(it, table) for it in file.functions)
    body = renamed(shader.body, table)
    return File(functions, replace(shader, body=Block((*first, *body.items), at=body.at)))


def _names(node: Node, own: set[str], used: dict[str, Place]) -> None:
    """Notes the variables in a part of the text that aren't its own, with their first places."""
    for it in walk(node):
        if isinstance(it, Name) and it.name not in own:
            used.setdefault(it.name, it.at)


def _one(work: Work, name: str, at: Place, is_written: bool, table: dict[str, Expression], first: list[Declare]) -> None:
    """Settles one predefined variable."""
    kind = PREDEFINED[name]
    if name not in READS[work.kind]:
        if work.kind == "light" and name in OF_LIGHT and not is_written:
            work.tell(NEAR, at, f"`{name}` in a light taken as that of a point at the origin of its space")
            table[name] = OF_LIGHT[name]
            return
        if work.kind == "surface":
            raise Refused(at, f"variable `{name}` in a surface")
        start = _start(work, name, at)
    elif not is_written or name in WRITES[work.kind]:
        return
    elif name in ("L", "Cl"):
        raise Refused(at, f"an assignment to `{name}` in a {work.kind}")
    else:
        near = name == "P" and work.kind == "surface"
        work.tell(NEAR if near else SAME, at, f"`{name}`, which a {work.kind} doesn't write here, copied" + (
            ": lights reach the place that it had" if near else ""))
        start = Name(name, at=at)
    own = work.fresh(name)
    work.copies[name] = own
    table[name] = Name(own, at=at)
    first.append(Declare("", False, kind, (Variable(own, None, start, at=at),), at=at))


def _start(work: Work, name: str, at: Place) -> Expression:
    """What a variable is that the kind of shader hasn't. A volume that asks for lights has one that is white and above it."""
    if work.kind == "volume" and name in ("L", "Cl"):
        return Cast("color", None, Number("1")) if name == "Cl" else Parts("vector", String('"world"'), (ZERO, Number("1"), ZERO))
    one = name == "Ol"
    work.tell(LEFT, at, f"`{name}` in a {work.kind} taken as {1 if one else 0}")
    number = Number("1" if one else "0")
    return Cast(PREDEFINED[name], None, number) if PREDEFINED[name] in TRIPLES else number


def _unhidden(work: Work, file: File) -> File:
    """The file with other names for the shader's variables that hide what a function reads from outside."""
    seen: set[str] = set()
    for function in file.functions:
        own = set(declared(function))
        seen |= {it.name for it in walk(function.body) if isinstance(it, Name) and it.name not in own and it.name in PREDEFINED}
    clash = sorted(seen & set(declared(file.shader.body)))
    if not clash:
        return file
    table: dict[str, Expression] = {}
    for name in clash:
        work.tell(SAME, file.shader.at, f"the variable `{name}` given another name: a function reads the predefined one")
        table[name] = Name(work.fresh(name))
    return replace(file, shader=replace(file.shader, body=renamed(file.shader.body, table)))
