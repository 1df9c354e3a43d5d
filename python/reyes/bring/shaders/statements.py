"""Statements in the words of the profile."""
from __future__ import annotations

from functools import partial

from reyes.bring.shaders import arrays, calls, lights, values
from reyes.bring.shaders.tree import (
    Block, Call, Declare, Do, Expression, For, Function, If, Infix, Jump, Lights, Number, Prefix, Refused, Return, Set, Statement,
    Variable, While, walk,
)
from reyes.bring.shaders.work import SAME, Held, Work

ALWAYS = Infix("==", Number("1"), Number("1"))


def statement(work: Work, it: Statement) -> None:
    """Puts one statement."""
    match it:
        case Block(items):
            work.put(Block(tuple(_inside(work, items)), at=it.at))
        case Declare():
            _declare(work, it)
        case Do(value):
            _do(work, value)
        case If(condition, yes, no):
            test = values.condition(work, condition)
            work.put(If(test, body(work, yes), body(work, no) if no is not None else None, at=it.at))
        case While() | For():
            _loop(work, it)
        case Lights():
            lights.put(work, it)
        case Jump(word, levels):
            if levels != 1:
                raise Refused(it.at, f"`{word}` out of more loops than stand around it")
            work.put(it)
        case Function():
            work.todo[it.name] = it
        case Return():
            raise Refused(it.at, "a `return` that stands in no function")


def _inside(work: Work, items: tuple[Statement, ...]) -> list[Statement]:
    """The statements of a block, with names of their own."""

    def each() -> None:
        for it in items:
            statement(work, it)

    with work.scope():
        return work.collected(each)


def body(work: Work, it: Statement) -> Statement:
    """The statement under an `if`, a loop and so on: one, or a block."""
    if isinstance(it, Block):
        return Block(tuple(_inside(work, it.items)), at=it.at)
    made = _inside(work, (it,))
    return made[0] if len(made) == 1 and not isinstance(made[0], Declare) else Block(tuple(made), at=it.at)


def _do(work: Work, it: Expression) -> None:
    """An expression for what it does."""
    if isinstance(it, Set):
        calls.assign(work, it)
    elif isinstance(it, Call):
        calls.effect(work, it)
    else:
        work.tell(SAME, it.at, "an expression that does nothing left out")
        values.expression(work, it)


def _each(work: Work, row: tuple[Expression, ...]) -> None:
    """Expressions for what they do, one after another."""
    for it in row:
        _do(work, it)


def _declare(work: Work, it: Declare) -> None:
    """A declaration; variables that need nothing before them stay together."""
    if it.extern:
        if not work.calling:
            work.tell(SAME, it.at, "`extern` declarations left out")
        return
    if it.type in ("matrix", "void", "bool"):
        raise Refused(it.at, "matrices" if it.type == "matrix" else f"variables of the type {it.type}")
    row: list[Variable] = []
    detail = "uniform" if it.type == "string" else it.detail
    if detail != it.detail:
        work.tell(SAME, it.at, "`uniform` put before a string")

    def flush() -> None:
        if row:
            work.put(Declare(detail, False, it.type, tuple(row), at=it.at))
            row.clear()

    for one in it.variables:
        made: list[Variable] = []
        before = work.collected(partial(_variable, work, it, detail, one, made))
        if before:
            flush()
            work.put(*before)
        row += made
    flush()


def _variable(work: Work, it: Declare, detail: str, one: Variable, made: list[Variable]) -> None:
    """One variable of a declaration; an array is put at once."""
    if one.length is not None:
        arrays.declare(work, one.name, it.type, detail, one.length, one.value, one.at)
        return
    value = values.converted(work, one.value, it.type) if one.value is not None else None
    if it.type == "string" and one.name not in work.assigned and (fixed := work.fixed(value)) is not None:
        work.declare(one.name, Held("string", (), fixed))
        made.append(Variable(one.name, None, value, at=one.at))
        return
    if one.name in work.scopes[-1] and len(work.scopes) > 1:
        work.tell(SAME, one.at, f"`{one.name}`, which is declared twice in a block, assigned to")
        work.set(one.name, value if value is not None else Number("0"), one.at)
        return
    if it.type == "string":
        work.may_be(one.name, value)
    work.declare(one.name, Held(it.type))
    made.append(Variable(one.name, None, value, at=one.at))


def _loop(work: Work, it: While | For) -> None:
    """A loop; what its head needs done before it goes into it."""
    first = it.first if isinstance(it, For) else ()
    last = it.last if isinstance(it, For) else ()
    heads = work.collected(partial(_each, work, first))
    test, before = work.valued(partial(values.condition, work, it.condition))
    steps = work.collected(partial(_each, work, last))
    inner = body(work, it.body)
    if not before and _short(heads) and _short(steps):
        if isinstance(it, While):
            work.put(While(test, inner, at=it.at))
        else:
            work.put(For(_values(heads), test, _values(steps), inner, at=it.at))
        return
    work.tell(SAME, it.at, "the head of a loop written into its body")
    work.put(*heads)
    guard = [*before, If(Prefix("!", test), Jump("break", at=it.at), None, at=it.at)] if before else []
    if steps and any(isinstance(one, Jump) and one.word == "continue" for one in walk(inner)):
        again = work.temporary("again", "float", Number("0"), it.at)
        mark = Do(Set("=", again, Number("1"), at=it.at), at=it.at)
        guard = [If(Infix("==", again, Number("1")), Block(tuple(steps), at=it.at), None, at=it.at), mark, *guard]
        steps = []
        if not before:
            guard.append(If(Prefix("!", test), Jump("break", at=it.at), None, at=it.at))
        test = ALWAYS
    whole = Block((*guard, inner, *steps), at=it.at)
    work.put(While(ALWAYS if before else test, whole, at=it.at))


def _short(row: list[Statement]) -> bool:
    """Whether statements can stand in the head of a `for`."""
    return not row or (len(row) == 1 and isinstance(row[0], Do) and isinstance(row[0].value, Set))


def _values(row: list[Statement]) -> tuple[Expression, ...]:
    """The assignments of such statements."""
    return tuple(one.value for one in row if isinstance(one, Do))
