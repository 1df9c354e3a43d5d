"""Classes of variables as the profile wants them, and derivatives and look-ups out of conditions that vary."""
from __future__ import annotations

from dataclasses import replace
from typing import Any

from reyes.bring.shaders.classes import Classes, declared_as
from reyes.bring.shaders.tree import (
    Block, Call, Choice, Declare, Do, Entangled, Expression, File, For, Formal, If, Infix, Name, Node, Number, Refused, Set, Statement,
    Variable, While, block, declared, mapped, targets, walk,
)
from reyes.bring.shaders.types import type_of
from reyes.bring.shaders.work import NEAR, SAME, Held, Work

ROUNDS = 8


def fitted(work: Work, file: File) -> File:
    """The file with its variables declared as they vary, and with no derivative under a condition that varies."""
    for _ in range(ROUNDS):
        classes = Classes(file)
        varying = classes.varying()
        least = classes.varying(least=True)
        held = {key: call for key, (call, place) in classes.differences.items() if place in least}
        if held:
            file = Lifting(work, file, classes, least, held).file()
            continue
        under = {place for _, place in classes.differences.values() if place in varying}
        details = _details(work, file, classes, varying, least, under)
        if details:
            file = declared_as(file, details)
            continue
        parts = {key for key, place in classes.parts.items() if place in varying}
        return _chosen(work, file, parts) if parts else file
    raise Refused(file.shader.at, "a derivative or a texture under conditions that vary, too deep in one another")


def _chosen(work: Work, file: File, parts: set[int]) -> File:
    """The file with a choice of the three parts of a colour where its place varies."""

    def change(it: Any) -> Any:
        if id(it) in parts:
            work.tell(SAME, it.at, "a part of a colour at a place that varies chosen from all three")
            if any(id(one) in parts for one in walk(it.arguments[1])):
                raise Refused(it.at, "a part of a colour at a place that is such a part itself")
            colour, place = (change(one) for one in it.arguments)
            rows = [Call("comp", (colour, Number(str(one))), at=it.at) for one in range(3)]
            return Choice(Infix("<", place, Number("1")), rows[0], Choice(Infix("<", place, Number("2")), rows[1], rows[2]), at=it.at)
        return mapped(it, change)

    return mapped(file, change)


def _details(work: Work, file: File, classes: Classes, varying: set[int], least: set[int], under: set[int]) -> dict[int, str]:
    """The classes that variables get: those that vary although they are uniform, and those that needn't vary and have derivatives wait."""
    found: dict[int, str] = {}
    parameters = {id(it) for it in file.shader.formals}
    sources = classes.before(under) if under else set()
    for node in walk(file):
        held = classes.variables.get(id(node))
        if held is None or not isinstance(node, (Formal, Variable)):
            continue
        if held.detail == "uniform" and held.place in varying and not (under and held.place not in least):
            if held.string:
                raise Refused(node.at, f"the string `{node.name}`, which is assigned under a condition that varies")
            work.tell(SAME, node.at, f"`{node.name}`, which takes values that vary, declared varying")
            found[id(node)] = "varying" if id(node) in parameters else ""
        elif held.detail == "" and held.place in sources and held.place not in least:
            work.tell(SAME, node.at, f"`{node.name}`, which a derivative or a texture waits for, declared uniform")
            found[id(node)] = "uniform"
    return found


class Lifting:
    """Takes derivatives and look-ups out of what varies: before it, where nothing in it changes what they are made of, else by
    computing both branches of an `if` at all points and keeping the one that holds.
    """

    def __init__(self, work: Work, file: File, classes: Classes, least: set[int], held: dict[int, Call]) -> None:
        self.work = work
        self.whole = file
        self.classes = classes
        self.least = least
        self.held = held
        names: dict[str, Held] = {}
        for it in walk(file):
            if isinstance(it, Declare):
                names.update({one.name: Held(it.type) for one in it.variables})
            elif isinstance(it, Formal):
                names[it.name] = Held(it.type)
        work.scopes = [names]

    def file(self) -> File:
        """The file without them."""
        for it in self.whole.functions:
            if self.has(it):
                raise Entangled(it.at, f"a derivative in the function `{it.name}` under a condition that varies")
        shader = self.whole.shader
        body = Block(tuple(self.row(shader.body.items)), at=shader.body.at)
        return replace(self.whole, shader=replace(shader, body=body))

    def has(self, it: Node) -> bool:
        """Whether one of them is in a part of the text."""
        return any(id(one) in self.held for one in walk(it))

    def row(self, items: tuple[Statement, ...]) -> list[Statement]:
        """Statements without them."""
        found: list[Statement] = []
        for it in items:
            found += self.one(it) if self.has(it) else [it]
        return found

    def one(self, it: Statement) -> list[Statement]:
        """A statement that has one of them."""
        if isinstance(it, Block):
            return [Block(tuple(self.row(it.items)), at=it.at)]
        if self.classes.conditions.get(id(it)) in self.least:
            return self.lifted(it)
        if isinstance(it, (If, While, For)):
            return [mapped(it, lambda part: self.inner(part) if isinstance(part, Statement) else part)]
        raise Refused(it.at, "a derivative or a texture in a place that varies")

    def inner(self, it: Statement) -> Statement:
        """The statement under an `if` or a loop."""
        return block(*self.row(it.items if isinstance(it, Block) else (it,)), at=it.at)

    def lifted(self, it: Statement) -> list[Statement]:
        """A statement whose condition varies, with what it has of them before it."""
        inside = set(declared(it)) | targets(it)
        found: list[Statement] = []
        names: dict[Call, Name] = {}
        for one in walk(it):
            if isinstance(one, Call) and id(one) in self.held and one not in names and not self.depends(one, inside):
                self.work.tell(SAME, one.at, f"`{one.name}` put before the condition that it stands under")
                kind = type_of(self.work, one)
                names[one] = Name(self.work.fresh("before"), at=one.at)
                found.append(Declare("", False, kind, (Variable(names[one].name, None, one, at=one.at),), at=one.at))

        def change(part: Any) -> Any:
            return names[part] if isinstance(part, Call) and part in names and id(part) in self.held else mapped(part, change)

        if names:
            # what is left is found anew in the next round
            return [*found, change(it)]
        if not isinstance(it, If):
            raise Refused(it.at, "a derivative or a texture in a loop that varies, of what the loop changes")
        return [block(*self.flat(it, None), at=it.at)]

    def depends(self, it: Call, inside: set[str]) -> bool:
        """Whether a call reads what a statement changes."""
        return any(isinstance(one, Name) and one.name in inside for one in walk(it))

    def flat(self, it: If, outer: Expression | None) -> list[Statement]:
        """An `if` without the `if`: its condition is kept in a variable, and both of its branches stand under it part by part."""
        self.work.tell(NEAR, it.at, "derivatives or textures under a condition that varies computed at all points, beyond its border too")
        flag = Name(self.work.fresh("under"), at=it.at)
        kept = Choice(it.condition, Number("1"), Number("0"), at=it.at)
        found: list[Statement] = [Declare("", False, "float", (Variable(flag.name, None, kept, at=it.at),), at=it.at)]
        self.work.declare(flag.name, Held("float"))
        for branch, value in ((it.yes, "1"), (it.no, "0")):
            if branch is not None:
                test: Expression = Infix("==", flag, Number(value), at=it.at)
                test = Infix("&&", outer, test, at=it.at) if outer is not None else test
                items = branch.items if isinstance(branch, Block) else (branch,)
                found.append(block(*(made for one in items for made in self.under(one, test)), at=branch.at))
        return found

    def under(self, it: Statement, test: Expression) -> list[Statement]:
        """A statement that counts where a condition holds, and has none of them under it."""
        if isinstance(it, Declare):
            return [it]
        if isinstance(it, Block):
            return [block(*(made for one in it.items for made in self.under(one, test)), at=it.at)]
        if not self.has(it):
            return [If(test, it, None, at=it.at)]
        if isinstance(it, If):
            return self.flat(it, test)
        if isinstance(it, Do) and isinstance(it.value, Set):
            own = it.value
            value = own.value if own.sign == "=" else Infix(own.sign[0], own.target, own.value, at=own.at)
            return [Do(replace(own, sign="=", value=Choice(test, value, own.target, at=own.at)), at=it.at)]
        raise Refused(it.at, "a derivative or a texture in a loop under a condition that varies")
