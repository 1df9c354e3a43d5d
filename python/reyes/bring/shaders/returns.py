"""`return` anywhere but last, in words without it: what follows it stands in the other branch, or under a flag."""
from __future__ import annotations

from collections.abc import Callable, Sequence
from dataclasses import replace

from reyes.bring.shaders.tree import (
    Block, Do, Expression, For, Function, If, Infix, Jump, Lights, Name, Node, Number, Return, Set, Statement, While, block, children,
)
from reyes.bring.shaders.work import as_block


def returns(it: Node | None) -> bool:
    """Whether a statement has a `return` of its own: those of functions inside are theirs."""
    todo = [it] if it is not None else []
    while todo:
        node = todo.pop()
        if isinstance(node, Return):
            return True
        if not isinstance(node, (Function, Expression)):
            todo.extend(children(node))
    return False


def always(it: Statement | None) -> bool:
    """Whether a statement returns wherever it comes to its end."""
    match it:
        case Return():
            return True
        case Block(items):
            return bool(items) and always(items[-1])
        case If(_, yes, no):
            return always(yes) and always(no)
    return False


class Cut:
    """Cuts the returns out of a function's statements. `give` makes the statement that keeps a value that is returned.

    `flag` is a variable that is 1 after a return where something else would follow; `flagged` tells whether any is needed.
    """

    def __init__(self, flag: Name, give: Callable[[Return], list[Statement]]) -> None:
        self.flag = flag
        self.give = give
        self.flagged = False

    def row(self, items: Sequence[Statement], under: bool, loop: bool) -> list[Statement]:
        """Statements without returns. `under`: something follows them that a return passes over; `loop`: a loop stands around them."""
        found: list[Statement] = []
        for place, it in enumerate(items):
            rest = items[place + 1:]
            if not returns(it):
                found.append(it)
            elif isinstance(it, Return):
                return found + self.left(it, under, loop)
            elif isinstance(it, If) and always(it.yes) and not returns(it.no):
                no = (*as_block(it.no), *rest) if it.no is not None else rest
                return found + [replace(it, yes=self.block(it.yes, under, loop), no=block(*self.row(no, under, loop), at=it.at))]
            elif always(it) or not rest:
                return found + self.inner(it, under, loop)
            else:
                found += self.inner(it, True, loop)
                if loop and not isinstance(it, (While, For)):
                    continue
                if not loop:
                    return found + [If(self.unset(it), block(*self.row(rest, under, loop), at=it.at), None, at=it.at)]
        return found

    def left(self, it: Return, under: bool, loop: bool) -> list[Statement]:
        """What stands in place of a return."""
        found = self.give(it)
        if under or loop:
            self.flagged = True
            found.append(Do(Set("=", self.flag, Number("1"), at=it.at), at=it.at))
        if loop:
            found.append(Jump("break", at=it.at))
        return found

    def block(self, it: Statement, under: bool, loop: bool) -> Block:
        """A statement without returns, as a block."""
        return block(*self.row(as_block(it), under, loop), at=it.at)

    def unset(self, it: Statement) -> Expression:
        """The condition that nothing was returned yet."""
        self.flagged = True
        return Infix("==", self.flag, Number("0"), at=it.at)

    def inner(self, it: Statement, under: bool, loop: bool) -> list[Statement]:
        """One statement that has returns inside."""
        if isinstance(it, If):
            no = self.block(it.no, under, loop) if it.no is not None else None
            return [replace(it, yes=self.block(it.yes, under, loop), no=no)]
        if isinstance(it, Block):
            return [self.block(it, under, loop)]
        if isinstance(it, (While, For)):
            found: list[Statement] = [replace(it, body=self.block(it.body, True, True))]
            if loop:
                self.flagged = True
                found.append(If(Infix("==", self.flag, Number("1"), at=it.at), Jump("break", at=it.at), None, at=it.at))
            return found
        if isinstance(it, Lights):
            body = self.block(it.body, True, loop)
            return [replace(it, body=block(If(self.unset(it), body, None, at=it.at), at=it.at))]
        return [it]
