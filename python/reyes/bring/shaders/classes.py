"""Which variables vary over a surface, by where their values come from, and what has to be declared otherwise for it.

Values, variables, functions and conditions are places of one graph; what varies goes along its edges. So one walk over the text and one
over the graph find all of it.
"""
from __future__ import annotations

from collections.abc import Iterable
from dataclasses import dataclass, replace
from typing import Any

from reyes.bring.shaders.tree import (
    Block, Call, Declare, Do, Expression, File, For, Formal, Function, If, Jump, Lights, Name, Node, Number, Return, Set, Statement, Variable, While,
    children, mapped,
)
from reyes.bring.shaders.work import PREDEFINED

VARYING = 0
UNIFORM = ("du", "dv", "E", "PI")
SUMS = ("ambient", "diffuse", "specular")
DIFFERENCES = ("Du", "Dv", "calculatenormal", "texture")


@dataclass
class Variety:
    """What is known of one variable: its place in the graph, whether its type is a string, and how it is declared."""

    place: int
    string: bool
    detail: str


class Classes:
    """The graph of one file. `variables` has each declared variable and formal by the identity of its node."""

    def __init__(self, file: File) -> None:
        self.edges: list[list[int]] = [[]]
        self.variables: dict[int, Variety] = {}
        self.scopes: list[dict[str, Variety]] = [{}]
        self.functions: dict[str, tuple[list[Variety], int, int]] = {}
        # each derivative or look-up, by the identity of its node, with the condition that it stands under
        self.differences: dict[int, tuple[Call, int]] = {}
        self.conditions: dict[int, int] = {}
        # each part of a colour whose place isn't a number, with what that place is made of
        self.parts: dict[int, int] = {}
        self.inside: int | None = None
        self.keep: list[Node] = [file]
        for function in file.functions:
            self.function(function)
        self.scopes = [{}]
        for it in file.shader.formals:
            self.edge(self.sources(it.value, VARYING), self.formal(it, "uniform").place)
        self.block(file.shader.body.items, self.new())

    def new(self) -> int:
        """A new place of the graph."""
        self.edges.append([])
        return len(self.edges) - 1

    def edge(self, sources: Iterable[int], target: int) -> None:
        """What varies at the sources varies at the target."""
        for it in sources:
            self.edges[it].append(target)

    def formal(self, it: Formal, usual: str) -> Variety:
        """A parameter or a formal."""
        return self.declare(it, it.name, it.type, it.detail or usual)

    def declare(self, node: Formal | Variable, name: str, kind: str, detail: str) -> Variety:
        """A new variable."""
        held = Variety(self.new(), kind == "string", detail)
        self.variables[id(node)] = held
        self.scopes[-1][name] = held
        if self.inside is not None:
            self.edge([held.place], self.inside)
        return held

    def function(self, it: Function) -> None:
        """A function: its value holds its formals and all of its body; it runs under the conditions of its calls."""
        self.scopes = [{}]
        self.inside, control = self.new(), self.new()
        formals = [self.formal(one, "varying") for one in it.formals]
        self.functions[it.name] = (formals, self.inside, control)
        self.block(it.body.items, control)
        self.inside = None

    def find(self, name: str) -> Variety | None:
        """The variable of that name."""
        for scope in reversed(self.scopes):
            if name in scope:
                return scope[name]
        return None

    def sources(self, it: Expression | None, control: int) -> list[int]:
        """The places that a value comes from; it is looked at under a condition."""
        found: list[int] = []
        todo: list[Node] = [it] if it is not None else []
        while todo:
            node = todo.pop()
            if isinstance(node, Name):
                held = self.find(node.name)
                if held is not None:
                    found.append(held.place)
                elif node.name in PREDEFINED and node.name not in UNIFORM:
                    found.append(VARYING)
            elif isinstance(node, Call) and node.name in self.functions:
                found += self.own_call(node, control)
                continue
            elif isinstance(node, Call) and node.name == "comp" and len(node.arguments) == 2:
                found += self.part(node, control)
                todo.append(node.arguments[0])
                continue
            elif isinstance(node, Call):
                found += self.call(node, control)
            todo.extend(children(node))
        return found

    def part(self, node: Call, control: int) -> list[int]:
        """The places of the number that says which part of a colour is meant."""
        if isinstance(node.arguments[1], Number):
            return []
        sources = self.sources(node.arguments[1], control)
        self.parts[id(node)] = place = self.new()
        self.edge(sources, place)
        return sources

    def own_call(self, node: Call, control: int) -> list[int]:
        """The places of a call of the file's own functions: its value and its arguments, which go into the formals too."""
        formals, value, own = self.functions[node.name]
        self.edge([control], own)
        found = [value]
        for held, argument in zip(formals, node.arguments):
            sources = self.sources(argument, control)
            self.edge(sources, held.place)
            found += sources
        return found

    def call(self, node: Call, control: int) -> list[int]:
        """The places that a call adds to those of its arguments."""
        if node.name in DIFFERENCES:
            self.differences[id(node)] = (node, control)
        if node.name in SUMS or node.name in DIFFERENCES[:3] or (node.name == "texture" and len(node.arguments) == 1):
            if self.inside is not None:
                self.edge([VARYING], self.inside)
            return [VARYING]
        return []

    def block(self, items: Iterable[Statement], control: int, loop: int | None = None) -> None:
        """Statements with names of their own."""
        self.scopes.append({})
        for it in items:
            self.statement(it, control, loop)
        self.scopes.pop()

    def statement(self, it: Statement, control: int, loop: int | None) -> None:
        """One statement under a condition, in a loop or in none."""
        match it:
            case Block(items):
                self.block(items, control, loop)
            case Declare(detail, _, kind, variables):
                for one in variables:
                    found = self.sources(one.value, control)
                    self.edge(found, self.declare(one, one.name, kind, detail).place)
            case Do(value):
                self.assign(value, control)
            case If(condition, yes, no):
                own = self.condition(it, condition, control, control)
                self.block((yes,), own, loop)
                self.block((no,) if no is not None else (), own, loop)
            case While(condition, body):
                own = self.loop(it, condition, control)
                self.block((body,), own, own)
            case For(first, condition, last, body):
                for value in first:
                    self.assign(value, control)
                own = self.loop(it, condition, control)
                self.block((body,), own, own)
                for value in last:
                    self.assign(value, own)
            case Lights(_, arguments, body):
                for value in arguments:
                    self.sources(value, control)
                own = self.new()
                self.conditions[id(it)] = own
                self.edge([VARYING], own)
                self.block((body,), own, loop)
            case Jump():
                if loop is not None:
                    self.edge([control], loop)
            case Return(value):
                self.edge(self.sources(value, control), self.inside if self.inside is not None else VARYING)

    def condition(self, it: Node, test: Expression, control: int, under: int) -> int:
        """A new condition in another; its test is looked at under a third."""
        own = self.new()
        self.conditions[id(it)] = own
        self.edge([control, *self.sources(test, under)], own)
        return own

    def loop(self, it: Node, test: Expression, control: int) -> int:
        """The condition of a loop, which its test stands under."""
        own = self.new()
        self.conditions[id(it)] = own
        self.edge([control, *self.sources(test, own)], own)
        return own

    def assign(self, value: Expression, control: int) -> None:
        """An assignment in its condition, or a value."""
        if not isinstance(value, Set):
            self.sources(value, control)
            return
        found = self.sources(value.value, control)
        held = self.find(value.target.name) if isinstance(value.target, Name) else None
        if held is not None:
            self.edge([*found, control], held.place)

    def varying(self, least: bool = False) -> set[int]:
        """All places that vary: with variables that are declared neither way varying, or, for `least`, only where they have to be."""
        seeds = [VARYING]
        for held in self.variables.values():
            if held.detail == "varying" or (held.detail == "" and not least):
                seeds.append(held.place)
        return self.reached(seeds, self.edges)

    def reached(self, seeds: Iterable[int], edges: list[list[int]]) -> set[int]:
        """All places that some places lead to."""
        found: set[int] = set()
        todo = list(seeds)
        while todo:
            place = todo.pop()
            if place not in found:
                found.add(place)
                todo += edges[place]
        return found

    def before(self, seeds: Iterable[int]) -> set[int]:
        """All places that lead to some places."""
        back: list[list[int]] = [[] for _ in self.edges]
        for place, row in enumerate(self.edges):
            for it in row:
                back[it].append(place)
        return self.reached(seeds, back)


def declared_as(file: File, details: dict[int, str]) -> File:
    """The file with other classes for some variables and formals, by the identities of their nodes."""

    def change(it: Any) -> Any:
        if isinstance(it, Formal):
            return replace(it, detail=details[id(it)]) if id(it) in details else it
        if isinstance(it, Declare):
            rows: list[tuple[str, list[Variable]]] = []
            for one in it.variables:
                detail = details.get(id(one), it.detail)
                if not rows or rows[-1][0] != detail:
                    rows.append((detail, []))
                rows[-1][1].append(one)
            return [replace(it, detail=detail, variables=tuple(row)) for detail, row in rows]
        if isinstance(it, Block):
            items: list[Statement] = []
            for statement in it.items:
                changed = change(statement)
                items += changed if isinstance(changed, list) else [changed]
            return Block(tuple(items), at=it.at)
        return it if isinstance(it, Expression) else mapped(it, change)

    return mapped(file, change)
