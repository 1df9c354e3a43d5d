"""Lights with several `illuminate` and `solar`, of which one shines: they become one, which knows by a number whose statement to run."""
from __future__ import annotations

from dataclasses import replace
from typing import Any

from reyes.bring.shaders.tree import (
    Block, Call, Declare, Do, Expression, For, If, Infix, Lights, Name, Number, Place, Refused, Set, Shader, Statement, String, Variable, While,
    block, mapped, own, targets, walk,
)
from reyes.bring.shaders.work import NEAR, Work


def merged(work: Work, shader: Shader) -> Shader:
    """The shader with one statement over lights at its end, where it had several. Raises Refused where that can't be."""
    rows = [it for it in walk(shader.body) if isinstance(it, Lights)]
    if shader.kind != "light" or len(rows) < 2:
        return shader
    _refuse(shader, rows)
    work.tell(NEAR, rows[1].at, "several statements that light made one: what lies outside of their cones is lit by black")
    return replace(shader, body=Merging(work, shader.body).body())


def _refuse(shader: Shader, rows: list[Lights]) -> None:
    """Refuses what can't stand at the end: statements in loops or in one another, and colours that others change."""
    for it in walk(shader.body):
        if isinstance(it, (While, For, Lights)):
            inner = next((one for one in walk(it) if isinstance(one, Lights) and one is not it), None)
            if inner is not None:
                raise Refused(inner.at, f"`{inner.word}` in a loop or in another")
    inside = {id(one) for it in rows for one in walk(it)}
    for node in walk(shader.body):
        if isinstance(node, Set) and id(node) not in inside and "Cl" in targets(node):
            raise Refused(node.at, "`Cl` outside of several statements that light")


class Merging:
    """The rewriting of one body."""

    def __init__(self, work: Work, body: Block) -> None:
        self.work = work
        self.whole = body
        self.first: list[Declare] = []
        self.bodies: list[tuple[Expression, Statement]] = []
        self.scopes: list[dict[str, str]] = [{}]
        self.seen: set[str] = set()
        at = body.at
        self.which = self.variable("which", "float", at)
        self.lamp = self.variable("lamp", "point", at)
        self.axis = self.variable("axis", "vector", at)
        self.angle = self.variable("angle", "float", at)

    def variable(self, base: str, kind: str, at: Place) -> Name:
        """A variable at the head of the body."""
        name = self.work.fresh(base)
        self.first.append(Declare("", False, kind, (Variable(name, None, None, at=at),), at=at))
        return Name(name, at=at)

    def body(self) -> Block:
        """The body with one statement over lights at its end."""
        at = self.whole.at
        row = [made for it in self.whole.items for made in self.statement(it)]
        inner = [If(test, it, None, at=it.at) for test, it in self.bodies]
        return block(*self.first, *row, Lights("illuminate", (self.lamp,), block(*inner, at=at), at=at), at=at)

    def statement(self, it: Statement) -> list[Statement]:
        """A statement with its variables at the head of the body, and without what lights."""
        if isinstance(it, Declare):
            return self.declare(it)
        if isinstance(it, Lights):
            return self.light(it)
        if isinstance(it, Block):
            return [block(*self.inside(it.items), at=it.at)]
        made = mapped(it, lambda part: block(*self.inside((part,)), at=part.at) if isinstance(part, Statement) else self.named(part))
        return [made]

    def inside(self, items: tuple[Statement, ...]) -> list[Statement]:
        """Statements with names of their own."""
        self.scopes.append({})
        found = [made for it in items for made in self.statement(it)]
        self.scopes.pop()
        return found

    def named(self, it: Any) -> Any:
        """An expression or a statement with the names that variables have at the head."""
        if isinstance(it, Name):
            return Name(next((scope[it.name] for scope in reversed(self.scopes) if it.name in scope), it.name), at=it.at)
        return mapped(it, self.named)

    def declare(self, it: Declare) -> list[Statement]:
        """A declaration: the variable goes to the head, and its first value stays."""
        found: list[Statement] = []
        for one in it.variables:
            value = self.named(one.value) if one.value is not None else String('""') if it.type == "string" else Number("0")
            name = one.name if one.name not in self.seen else self.work.fresh(one.name)
            self.seen.add(name)
            self.scopes[-1][one.name] = name
            self.first.append(Declare(it.detail, False, it.type, (Variable(name, None, None, at=one.at),), at=it.at))
            if one.value is not None or len(self.scopes) > 1:
                found.append(Do(Set("=", Name(name, at=one.at), value, at=one.at), at=one.at))
        return found

    def light(self, it: Lights) -> list[Statement]:
        """What lights: its number, place and cone are kept, and its statement goes to the end."""
        at, number = it.at, Number(str(len(self.bodies) + 1))
        given: list[Expression] = [self.named(one) for one in it.arguments]
        place = Infix("-", Name("Ps", at=at), given[0], at=at) if it.word == "solar" else given[0]
        row = [(self.which, number), (self.lamp, place)]
        test: Expression = Infix("==", self.which, number, at=at)
        if it.word == "illuminate" and len(given) == 3:
            row += [(self.axis, given[1]), (self.angle, given[2])]
            cosine = Infix(".", Call("normalize", (Name("L", at=at),)), Call("normalize", (self.axis,)), at=at)
            test = Infix("&&", test, Infix(">=", cosine, Call("cos", (self.angle,)), at=at), at=at)
        self.bodies.append((test, self.named_body(it.body)))
        return [Do(Set("=", target, value, at=at), at=at) for target, value in row]

    def named_body(self, it: Statement) -> Statement:
        """The statement of a light, whose own variables stay in it."""
        hidden = {one.name for node in own(it) if isinstance(node, Declare) for one in node.variables}
        self.scopes.append({name: name for name in hidden})
        made: Statement = self.named(it)
        self.scopes.pop()
        return made if isinstance(made, Block) else block(made, at=it.at)
