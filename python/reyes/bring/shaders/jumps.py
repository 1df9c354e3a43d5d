"""`break` and `continue` out of several loops, and in statements over lights that no loop holds: by flags."""
from __future__ import annotations

from dataclasses import replace
from typing import Any

from reyes.bring.shaders.returns import Cut
from reyes.bring.shaders.tree import (
    Block, Declare, Do, Expression, File, For, Function, If, Infix, Jump, Lights, Name, Number, Place, Refused, Return, Set, Statement, Variable,
    While, block, mapped, walk,
)
from reyes.bring.shaders.work import SAME, Work, as_block


def settled(work: Work, file: File) -> File:
    """The file whose jumps leave one loop each; unchanged where they do."""
    if not any(isinstance(it, Jump) for it in walk(file)):
        return file

    def change(it: Any) -> Any:
        if isinstance(it, Function):
            return replace(it, body=_body(work, it.body, False))
        return it

    made = mapped(file, change)
    body = _body(work, made.shader.body, False)
    for it in (*(one.body for one in made.functions), body):
        for jump in _jumps(it):
            raise Refused(jump.at, f"`{jump.word}` out of more loops than stand around it")
    return replace(made, shader=replace(made.shader, body=body))


def _body(work: Work, it: Statement, loop: bool) -> Block:
    """A statement as a block whose jumps leave one loop each; `loop` tells whether a loop holds it."""
    if isinstance(it, Block):
        items = [made for one in it.items for made in _one(work, one, loop)]
        return it if len(items) == len(it.items) and all(a is b for a, b in zip(items, it.items)) else block(*items, at=it.at)
    return block(*_one(work, it, loop), at=it.at)


def _under(work: Work, it: Statement, loop: bool) -> Statement:
    """The same of a statement under an `if` or a loop: itself where nothing changes."""
    if isinstance(it, Block):
        return _body(work, it, loop)
    made = _one(work, it, loop)
    return made[0] if len(made) == 1 else block(*made, at=it.at)


def _one(work: Work, it: Statement, loop: bool) -> list[Statement]:
    """One statement, with what has to stand before and after it."""
    match it:
        case Block():
            return [_body(work, it, loop)]
        case If(_, yes, no):
            first, second = _under(work, yes, loop), _under(work, no, loop) if no is not None else None
            return [it if first is yes and second is no else replace(it, yes=first, no=second)]
        case While(_, body) | For(_, _, _, body):
            inner = _under(work, body, True)
            return _out_of(work, it if inner is body else replace(it, body=inner))
        case Lights(_, _, body):
            inner = _under(work, body, loop)
            made = it if inner is body else replace(it, body=inner)
            return [made] if loop else _over(work, made)
        case Function():
            return [replace(it, body=_body(work, it.body, False))]
    return [it]


def _jumps(it: Statement) -> list[Jump]:
    """The jumps in a statement that no loop in it holds."""
    found: list[Jump] = []
    todo: list[Any] = [it]
    while todo:
        node = todo.pop()
        if isinstance(node, Jump):
            found.append(node)
        elif isinstance(node, (Block, If, Lights)):
            todo += [one for one in (*getattr(node, "items", ()), *(getattr(node, name, None) for name in ("yes", "no", "body"))) if one is not None]
    return found


def _exchanged(it: Any, change: Any) -> Any:
    """A statement with others in place of the jumps that no loop in it holds."""
    if isinstance(it, Jump):
        return change(it)
    if isinstance(it, (While, For, Expression, Function)):
        return it
    return mapped(it, lambda part: _exchanged(part, change))


def _out_of(work: Work, it: While | For) -> list[Statement]:
    """A loop whose jumps leave it alone: those that go further set a flag, after which the next statement is a jump that goes one loop less."""
    kinds = sorted({(one.word, one.levels) for one in _jumps(it.body) if one.levels > 1})
    flags = {kind: Name(work.fresh("gone"), at=it.at) for kind in kinds}

    def change(jump: Jump) -> Statement:
        flag = flags.get((jump.word, jump.levels))
        if flag is None:
            return jump
        work.tell(SAME, jump.at, f"`{jump.word}` out of {jump.levels} loops by a flag")
        return block(_set(flag, "1", jump.at), Jump("break", at=jump.at), at=jump.at)

    if not kinds:
        return [it]
    before: list[Statement] = [_flag(flag) for flag in flags.values()]
    after: list[Statement] = [If(_is(flag), Jump(word, levels - 1, at=it.at), None, at=it.at) for (word, levels), flag in flags.items()]
    return [*before, replace(it, body=_exchanged(it.body, change)), *after]


def _over(work: Work, it: Lights) -> list[Statement]:
    """A statement over lights in no loop: `continue` passes over the rest of it, `break` over the further lights too."""
    jumps = _jumps(it.body)
    if not jumps:
        return [it]
    if any(one.levels > 1 for one in jumps):
        raise Refused(it.at, f"`{jumps[0].word}` out of more than a statement over lights")
    gone, done = (Name(work.fresh(base), at=it.at) for base in ("gone", "done"))

    def change(jump: Jump) -> Statement:
        work.tell(SAME, jump.at, f"`{jump.word}` in a statement over lights by a flag")
        leave = Return(None, at=jump.at)
        return leave if jump.word == "continue" else block(_set(gone, "1", jump.at), leave, at=jump.at)

    cut = Cut(done, lambda one: [])
    items = cut.row(as_block(_exchanged(it.body, change)), False, False)
    test = Infix("==", gone, Number("0"), at=it.at)
    inner = [_flag(done), *items] if cut.flagged else items
    return [_flag(gone), replace(it, body=block(If(test, block(*inner, at=it.at), None, at=it.at), at=it.at))]


def _flag(flag: Name) -> Declare:
    """Declares a flag that isn't set."""
    return Declare("", False, "float", (Variable(flag.name, None, Number("0"), at=flag.at),), at=flag.at)


def _is(flag: Name) -> Expression:
    """The condition that a flag is set."""
    return Infix("==", flag, Number("1"), at=flag.at)


def _set(flag: Name, value: str, at: Place) -> Statement:
    """Sets a flag."""
    return Do(Set("=", flag, Number(value), at=at), at=at)
