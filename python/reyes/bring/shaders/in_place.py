"""Functions put in place where they are called, and which of them may stay."""
from __future__ import annotations

from collections.abc import Callable
from dataclasses import replace

from reyes.bring.shaders import arrays, statements, values
from reyes.bring.shaders.returns import Cut, returns
from reyes.bring.shaders.tree import (
    Block, Call, Declare, Do, Expression, File, For, Formal, Function, If, Item, Lights, Name, Node, Number, Place, Refused, Return, Set,
    Statement, String, While, declared, renamed, targets, walk,
)
from reyes.bring.shaders.types import constant, type_of
from reyes.bring.shaders.work import SAME, Work

# What becomes words that read the shader's own variables, or that put statements which a function can't have.
SEEING = (
    "area", "filterstep", "fresnel", "phong", "random", "texture", "environment", "Deriv", "setcomp", "setxcomp", "setycomp", "setzcomp",
    "transform", "vtransform", "ntransform", "refract",
)
DEEPEST = 48
# Functions of the standard that assign to arguments, and from which one on.
FILLING = {"fresnel": 3, "setcomp": 0, "setxcomp": 0, "setycomp": 0, "setzcomp": 0}


def reason(function: Function, entangled: bool) -> str:
    """Why a function can't stay as it is, or ""; `entangled` tells that those with derivatives can't."""
    body = function.body.items
    if function.type in ("void", "matrix") or not body or not isinstance(body[-1], Return) or body[-1].value is None:
        return "without a value"
    if any(returns(it) for it in body[:-1]):
        return "with a return in between"
    if any(it.output or it.length is not None or it.type in ("matrix", "string") for it in function.formals):
        return "with output parameters, arrays or strings"
    own = set(declared(function)) | {"PI"}
    control = False
    for it in walk(function.body):
        if isinstance(it, (Lights, Function)) or (isinstance(it, Declare) and (it.extern or any(one.length for one in it.variables))):
            return "with lights, functions, arrays or variables from outside in it"
        if isinstance(it, Name) and it.name not in own:
            return "that reads variables from outside"
        if isinstance(it, Call) and it.name in SEEING:
            return f"with `{it.name}` in it"
        control = control or isinstance(it, (If, While, For))
    if (control or entangled) and any(isinstance(it, Call) and it.name in ("Du", "Dv", "calculatenormal") for it in walk(function.body)):
        return "with derivatives under a condition"
    return ""


def sort(work: Work, file: File) -> None:
    """Says of each function whether it stays or is put in place; one that calls those that are put in place is put in place too."""
    names = {it.name for it in file.functions}
    callers: dict[str, list[str]] = {}
    going: list[str] = []
    known: set[str] = set()
    for it in file.functions:
        if it.name in known:
            raise Refused(it.at, f"two functions `{it.name}`")
        known.add(it.name)
        for one in walk(it.body):
            if isinstance(one, Call) and one.name in names:
                callers.setdefault(one.name, []).append(it.name)
                if one.name not in known or one.name == it.name:
                    going.append(it.name)
        if reason(it, work.entangled):
            going.append(it.name)
    gone: set[str] = set()
    while going:
        name = going.pop()
        if name not in gone:
            gone.add(name)
            going += callers.get(name, [])
    work.todo = {it.name: it for it in file.functions if it.name in gone}
    work.kept = {it.name: it for it in file.functions if it.name not in gone}


def put(work: Work, it: Call, want: str) -> Expression:
    """The value of a call whose function is put in place: its statements come before the one that it stands in."""
    function = work.todo[it.name]
    if it.name in work.calling or len(work.calling) >= DEEPEST:
        raise Refused(it.at, f"function `{it.name}` calls itself, or functions call one another too deep")
    if len(it.arguments) != len(function.formals):
        raise Refused(it.at, f"{len(it.arguments)} arguments of `{it.name}`, which takes {len(function.formals)}")
    work.tell(SAME, it.at, f"function `{it.name}` put in place")
    before = dict(work.todo)
    work.calling.append(it.name)
    table: dict[str, Expression] = {}
    after: list[tuple[Expression, Name]] = []
    fixed = _outputs(it, function) | changed(work, function.body)
    for argument, formal in zip(it.arguments, function.formals):
        table[formal.name] = _argument(work, formal, argument, it, fixed, after)
    for name in declared(function.body):
        table.setdefault(name, Name(work.fresh(name)))
    work.grow(sum(1 for _ in walk(function.body)), it.at)
    body = renamed(function.body, table)
    work.assigned |= changed(work, body)
    result = _body(work, function, body, it.at)
    for target, own in after:
        statements.statement(work, Do(Set("=", target, own, at=it.at), at=it.at))
    work.calling.pop()
    work.todo = before
    return result


def _outputs(it: Call, function: Function) -> set[str]:
    """The variables that a call has for output parameters."""
    return {one.name for one, formal in zip(it.arguments, function.formals) if formal.output and isinstance(one, Name)}


def changed(work: Work, node: Node) -> set[str]:
    """The variables that are assigned to in a part of the text, by functions that are called there too."""
    found = targets(node)
    for it in walk(node):
        if isinstance(it, Call) and it.name in work.todo:
            found |= _outputs(it, work.todo[it.name])
        elif isinstance(it, Call) and it.name in FILLING:
            found |= {one.name for one in it.arguments[FILLING[it.name]:] if isinstance(one, Name)}
    return found


def _argument(work: Work, formal: Formal, argument: Expression, it: Call, fixed: set[str], after: list[tuple[Expression, Name]]) -> Expression:
    """What stands for a formal in the body: the argument itself where it is a name or a number that nothing there changes, else a variable
    of its own. An output that is no plain variable is assigned after the body.
    """
    if formal.length is not None:
        if arrays.array(work, argument) is None:
            raise Refused(it.at, f"`{formal.name}` of `{it.name}` is an array")
        return argument
    if formal.output:
        return _output(work, formal, argument, it, after)
    value = values.converted(work, argument, formal.type)
    plain = isinstance(value, (Number, String)) or (isinstance(value, Name) and value.name not in fixed)
    if plain and formal.name not in fixed and type_of(work, value) == formal.type:
        return value
    return work.let(work.fresh(formal.name), formal.type, value, it.at, formal.detail if formal.detail == "uniform" else "")


def _output(work: Work, formal: Formal, argument: Expression, it: Call, after: list[tuple[Expression, Name]]) -> Expression:
    """The variable that stands for an output parameter."""
    if isinstance(argument, Item) and constant(argument.index) is not None:
        argument = arrays.element(work, argument)
    if isinstance(argument, Name) and type_of(work, argument) == formal.type:
        return argument
    if not isinstance(argument, (Name, Item)):
        raise Refused(it.at, f"`{formal.name}` of `{it.name}` is an output parameter, and takes a variable")
    own = work.temporary(formal.name, formal.type, values.converted(work, argument, formal.type), it.at)
    after.append((argument, own))
    return own


def _body(work: Work, function: Function, body: Block, at: Place) -> Expression:
    """Puts a body and gives its value; a body that is one `return` is its value."""
    items = body.items
    if len(items) == 1 and isinstance(items[0], Return) and items[0].value is not None and function.type != "void":
        return values.converted(work, items[0].value, function.type)
    result = Name(work.fresh(function.name), at=at)
    if function.type == "matrix":
        raise Refused(function.at, "matrices")
    if function.type != "void":
        work.let(result.name, function.type, None, at)

    def give(it: Return) -> list[Statement]:
        return [Do(Set("=", result, it.value, at=it.at), at=it.at)] if it.value is not None and function.type != "void" else []

    flat(work, body, give)
    return result if function.type != "void" else Number("0")


def flat(work: Work, body: Block, give: Callable[[Return], list[Statement]]) -> None:
    """Puts a body as a block, without its returns."""
    if returns(body):
        cut = Cut(Name(work.fresh("done"), at=body.at), give)
        body = replace(body, items=tuple(cut.row(body.items, False, False)))
        if cut.flagged:
            work.let(cut.flag.name, "float", Number("0"), body.at)
            work.assigned.add(cut.flag.name)
    statements.statement(work, body)
