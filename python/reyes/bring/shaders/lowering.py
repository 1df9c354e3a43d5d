"""All passes over one shader's tree, in their order."""
from __future__ import annotations

from collections.abc import Mapping
from dataclasses import dataclass, replace
from functools import partial
from typing import Any

from numpy.typing import NDArray

from reyes.bring.changes import Changes
from reyes.bring.shaders import values  # first: the tables of calls fill up while it is read
from reyes.bring.shaders import arrays, calls, colours, defaults, jumps, lights, noises, spaces, splines, statements, surfaces, textures
from reyes.bring.shaders.fitting import fitted
from reyes.bring.shaders.in_place import changed, flat, sort
from reyes.bring.shaders.lamps import merged
from reyes.bring.shaders.predefined import settled
from reyes.bring.shaders.tree import (
    Block, Call, Entangled, Expression, File, Formal, Function, Items, Name, Number, Refused, Return, Shader, Statement, String, block, walk,
)
from reyes.bring.shaders.work import READS, SAME, Held, Work, names_of

MODULES = (arrays, calls, colours, lights, noises, spaces, splines, surfaces, textures)


@dataclass(frozen=True)
class Parameter:
    """A parameter as the shader's author declared it: its type, whether it is uniform, its length where it is an array (else 0), and its
    name, or those of its elements, in the shader as it is brought.
    """

    name: str
    type: str
    uniform: bool
    length: int
    names: tuple[str, ...]


def lowered(file: File, name: str, spaces_of_scene: Mapping[str, NDArray[Any]], changes: Changes) -> tuple[File, dict[str, Parameter], Work]:
    """The file in the words of the profile, and its parameters by their names. Raises Refused where that can't be."""
    kind = file.shader.kind
    if kind not in READS:
        raise Refused(file.shader.at, f"a shader of the kind {kind}")
    work = Work(name, kind, changes, spaces_of_scene, names_of(file))
    try:
        return *_passes(work, file), work
    except Entangled:
        # what was told so far isn't told again
        work = Work(name, kind, changes, spaces_of_scene, names_of(file), told=work.told, held=work.held, entangled=True)
        return *_passes(work, file), work


def _passes(work: Work, file: File) -> tuple[File, dict[str, Parameter]]:
    """All passes, in their order."""
    file = jumps.settled(work, file)
    file = replace(file, shader=defaults.settled(work, file.shader))
    sort(work, file)
    file = settled(work, file)
    # the functions may have other names of variables in them now
    sort(work, file)
    work.assigned = changed(work, file.shader.body)
    called = _called(file)
    formals, parameters = _formals(work, file.shader)
    body = _shader_body(work, file.shader.body)
    kept = [made for it in file.functions if (made := _function(work, it, it.name in called)) is not None]
    shader = merged(work, Shader(work.kind, file.shader.name, formals, body, at=file.shader.at))
    return fitted(work, File((*work.used.values(), *kept), shader)), parameters


def _called(file: File) -> set[str]:
    """The functions that are called, from the shader on."""
    functions = {it.name: it for it in file.functions}
    found: set[str] = set()
    todo: list[Shader | Function] = [file.shader]
    while todo:
        for it in walk(todo.pop()):
            if isinstance(it, Call) and it.name in functions and it.name not in found:
                found.add(it.name)
                todo.append(functions[it.name])
    return found


def _formals(work: Work, shader: Shader) -> tuple[tuple[Formal, ...], dict[str, Parameter]]:
    """The parameters of a shader, arrays taken apart."""
    found: list[Formal] = []
    parameters: dict[str, Parameter] = {}
    for it in shader.formals:
        if it.type not in ("float", "color", "point", "vector", "normal", "string"):
            raise Refused(it.at, "matrices" if it.type == "matrix" else f"a parameter of the type {it.type}")
        if it.name in parameters:
            raise Refused(it.at, f"two parameters `{it.name}`")
        if it.output:
            work.tell(SAME, it.at, "`output` before parameters left out")
        detail = "" if it.type == "string" else it.detail
        if detail != it.detail and it.detail == "varying":
            work.tell(SAME, it.at, "`varying` before a string left out")
        else:
            detail = it.detail
        names, made = _parameter(work, it, detail)
        found += made
        length = len(names) if it.length is not None else 0
        parameters[it.name] = Parameter(it.name, it.type, detail != "varying", length, names)
    for it in shader.formals:
        own = parameters[it.name]
        work.declare(it.name, Held(it.type, own.names if own.length else ()))
        for name in own.names if own.length else ():
            work.declare(name, Held(it.type))
    return tuple(found), parameters


def _parameter(work: Work, it: Formal, detail: str) -> tuple[tuple[str, ...], list[Formal]]:
    """A parameter, or one for each element of an array."""
    if it.length is None:
        return (it.name,), [Formal(False, detail, it.type, it.name, None, _default(work, it, it.value), at=it.at)]
    count = arrays.length_of(work, it.length, it.value)
    names = arrays.element_names(work, it.name, count)
    work.tell(SAME, it.at, f"the parameter `{it.name}`, an array, taken apart into {names[0]} and so on")
    row = it.value.values if isinstance(it.value, Items) else (it.value,) * count
    given = [row[place] if place < len(row) else None for place in range(count)]
    return names, [Formal(False, detail, it.type, own, None, _default(work, it, one), at=it.at) for own, one in zip(names, given)]


def _default(work: Work, it: Formal, value: Expression | None) -> Expression:
    """A parameter's default, which can have no statements before it."""
    if value is None:
        if it.length is None:
            work.tell(SAME, it.at, f"`{it.name}` given a default")
        return String('""', at=it.at) if it.type == "string" else Number("0", at=it.at)
    if any(isinstance(one, Name) and one.name != "PI" for one in walk(value)):
        raise Refused(it.at, f"the default of `{it.name}`, which reads a variable")
    found, before = work.valued(partial(values.converted, work, value, it.type))
    if before:
        raise Refused(it.at, f"the default of `{it.name}`, which needs statements")
    return found


def _shader_body(work: Work, body: Block) -> Block:
    """The statements of a shader, without those `return`s that a shader has."""

    def give(it: Return) -> list[Statement]:
        work.tell(SAME, it.at, "`return` in a shader: what follows it stands in the other branch")
        return []

    made = work.collected(partial(flat, work, body, give))
    if len(made) == 1 and isinstance(made[0], Block):
        return made[0]
    return block(*made, at=body.at)


def _function(work: Work, it: Function, is_called: bool) -> Function | None:
    """A function that stays, in the words of the profile; one that nothing calls stays only where it has them."""
    if it.name in work.todo and it.name not in work.kept:
        if not is_called:
            _left_out(work, it)
        return None
    if is_called:
        return _body(work, it)
    changes, told, held = work.changes, work.told, work.held
    work.changes, work.told = Changes(), set()
    try:
        made: Function | None = _body(work, it) if it.at.file == work.name else None
    except Refused:
        made = None
    plain = made is not None and not work.told
    work.changes, work.told, work.held = changes, told, held
    if not plain:
        _left_out(work, it)
    return made if plain else None


def _left_out(work: Work, it: Function) -> None:
    """Tells of a function that nothing calls; of those in files that are included nobody asks."""
    if it.at.file == work.name:
        work.tell(SAME, it.at, f"function `{it.name}`, which nothing calls, left out")


def _body(work: Work, it: Function) -> Function:
    """A function's formals and statements."""
    scopes, work.scopes = work.scopes, [{}]
    for one in it.formals:
        work.declare(one.name, Held(one.type))
        if one.value is not None:
            work.tell(SAME, one.at, "defaults of formals left out")
    last = it.body.items[-1]
    assert isinstance(last, Return) and last.value is not None

    def each() -> None:
        for one in it.body.items[:-1]:
            statements.statement(work, one)
        assert isinstance(last, Return) and last.value is not None
        work.put(Return(values.converted(work, last.value, it.type), at=last.at))

    assigned, work.assigned = work.assigned, changed(work, it.body)
    with work.scope():
        items = work.collected(each)
    work.scopes, work.assigned = scopes, assigned
    formals = tuple(replace(one, value=None) if one.value is not None else one for one in it.formals)
    return Function(it.type, it.name, formals, Block(tuple(items), at=it.body.at), at=it.at)
