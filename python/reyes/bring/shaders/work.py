"""What the passes over a shader share: the variables that are known, the statements that are made, and what was told."""
from __future__ import annotations

from collections.abc import Callable, Iterator, Mapping
from contextlib import contextmanager
from dataclasses import dataclass, field
from typing import Any

from numpy.typing import NDArray

from reyes.bring.changes import Changes
from reyes.bring.shaders import library
from reyes.bring.shaders.tree import (
    Block, Call, Declare, Do, Expression, File, Formal, Function, Name, Place, Refused, Set, Statement, String, Variable, walk,
)

SAME, NEAR, LEFT = "=", "~", "!"
TRIPLES = ("color", "point", "vector", "normal")
PLACES = ("point", "vector", "normal")
# What the statements of one shader may come to: the renderer takes 65,536 nodes of its own count.
MOST = 32_768
# What the parts of functions that are put in place may come to.
MOST_PARTS = 65_536

READS = {
    "surface": "P N Ng I E u v du dv s t Cs Os dPdu dPdv L Cl Ci Oi PI".split(),
    "displacement": "P N Ng I E u v du dv s t Cs Os dPdu dPdv PI".split(),
    "light": "Ps E L Cl PI".split(),
    "volume": "P I E Ci Oi PI".split(),
}
WRITES = {"surface": ("Ci", "Oi"), "displacement": ("P", "N"), "light": ("Cl",), "volume": ("Ci", "Oi")}
PREDEFINED = {
    **dict.fromkeys(("P", "E", "Ps"), "point"),
    **dict.fromkeys(("N", "Ng"), "normal"),
    **dict.fromkeys(("I", "L", "dPdu", "dPdv", "dPdtime"), "vector"),
    **dict.fromkeys(("Cs", "Os", "Ci", "Oi", "Cl", "Ol"), "color"),
    **dict.fromkeys(("u", "v", "s", "t", "du", "dv", "PI", "time", "dtime", "ncomps", "alpha"), "float"),
}


@dataclass(frozen=True)
class Held:
    """A variable that is known: its type, the names of its elements where it is an array, and what it stands for where that is settled."""

    type: str
    elements: tuple[str, ...] = ()
    value: Expression | None = None


@dataclass
class Work:
    """The state of the passes over one shader.

    `out` has the statements that the text so far became; the innermost of `scopes` comes last. `todo` are functions that are put in
    place where they are called, `kept` those that stay, `used` those of the library that are needed. `assigned` are variables that are
    assigned to anywhere, `copies` the names of copies of predefined variables. `over` is the statement over lights that is being read,
    `entangled` tells that functions with derivatives are put in place,
    and `strings` has the strings and parameters that each string variable may stand for.
    """

    name: str
    kind: str
    changes: Changes
    spaces: Mapping[str, NDArray[Any]]
    taken: set[str]
    scopes: list[dict[str, Held]] = field(default_factory=lambda: [{}])
    todo: dict[str, Function] = field(default_factory=dict)
    kept: dict[str, Function] = field(default_factory=dict)
    used: dict[str, Function] = field(default_factory=dict)
    out: list[Statement] = field(default_factory=list)
    told: set[tuple[str, Place, str]] = field(default_factory=set)
    assigned: set[str] = field(default_factory=set)
    copies: dict[str, str] = field(default_factory=dict)
    held: bool = False
    calling: list[str] = field(default_factory=list)
    made: int = 0
    placed: int = 0
    count: int = 0
    over: str = ""
    entangled: bool = False
    strings: dict[str, list[Expression]] = field(default_factory=dict)

    def tell(self, kind: str, at: Place, words: str) -> None:
        """Tells a change once for each place."""
        if (kind, at, words) not in self.told:
            self.told.add((kind, at, words))
            if not self.changes.tell(kind, at.file or self.name, at.line, words):
                self.held = True

    def fresh(self, base: str) -> str:
        """A name that the text doesn't have."""
        while True:
            self.count += 1
            name = f"{base}_{self.count}"
            if name not in self.taken:
                self.taken.add(name)
                return name

    def known(self, name: str) -> Held | None:
        """The variable of that name, the innermost one."""
        for scope in reversed(self.scopes):
            if name in scope:
                return scope[name]
        if name in PREDEFINED and (name in READS[self.kind] or name in WRITES[self.kind]):
            return Held(PREDEFINED[name])
        return None

    def declare(self, name: str, held: Held) -> None:
        """Makes a variable known in the innermost scope."""
        self.scopes[-1][name] = held

    @contextmanager
    def scope(self) -> Iterator[None]:
        """A scope of its own for names."""
        self.scopes.append({})
        try:
            yield
        finally:
            self.scopes.pop()

    def fixed(self, value: Expression | None) -> Expression | None:
        """What a string is for good: a text or a parameter that nothing assigns to; None where it may change."""
        if isinstance(value, Name):
            held = self.known(value.name)
            if held is not None and held.value is not None:
                return held.value
            return None if value.name in self.strings or value.name in self.assigned else value
        return value if isinstance(value, String) else None

    def may_be(self, name: str, value: Expression | None) -> None:
        """Notes what a string variable may stand for: itself where that isn't known."""
        row = self.strings.setdefault(name, [])
        for it in self.strings.get(value.name, [value]) if isinstance(value, Name) else [value or String('""')]:
            if it not in row:
                row.append(it)

    def put(self, *statements: Statement) -> None:
        """Adds statements to what the text became. Raises Refused where it becomes too long."""
        for it in statements:
            self.made += 1
            if self.made > MOST:
                raise Refused(it.at, f"more than {MOST} statements, with functions put in place")
            self.out.append(it)

    def grow(self, parts: int, at: Place) -> None:
        """Counts the parts of a function that is put in place. Raises Refused where these become too many."""
        self.placed += parts
        if self.placed > MOST_PARTS:
            raise Refused(at, f"more than {MOST_PARTS} parts of functions that are put in place")

    def collected(self, action: Callable[[], None]) -> list[Statement]:
        """The statements that an action puts."""
        before, self.out = self.out, []
        try:
            action()
            return self.out
        finally:
            self.out = before

    def valued(self, action: Callable[[], Expression]) -> tuple[Expression, list[Statement]]:
        """The value that an action gives, and the statements that it puts."""
        made: list[Expression] = []
        row = self.collected(lambda: made.append(action()))
        return made[0], row

    def let(self, name: str, kind: str, value: Expression | None, at: Place, detail: str = "") -> Name:
        """Declares a variable with its first value, in the statements and in the scope."""
        self.declare(name, Held(kind))
        if kind == "string":
            self.may_be(name, value)
        self.put(Declare("uniform" if kind == "string" else detail, False, kind, (Variable(name, None, value, at=at),), at=at))
        return Name(name, at=at)

    def temporary(self, base: str, kind: str, value: Expression | None, at: Place) -> Name:
        """A new variable with its first value."""
        return self.let(self.fresh(base), kind, value, at)

    def set(self, name: str, value: Expression, at: Place, sign: str = "=") -> None:
        """Assigns to a variable."""
        self.put(Do(Set(sign, Name(name, at=at), value, at=at), at=at))

    def need(self, name: str) -> str:
        """Makes a function of the library be written with the shader, with those that it calls, and gives its name."""
        own = library.PREFIX + name
        if own not in self.used and own not in self.kept:
            function = library.function(own)
            for it in walk(function.body):
                if isinstance(it, Call) and it.name.startswith(library.PREFIX):
                    self.need(it.name[len(library.PREFIX):])
            self.used[own] = function
        return own

    def of_library(self, name: str, *arguments: Expression) -> Call:
        """A call of a function of the library."""
        return Call(self.need(name), arguments)


def names_of(file: File) -> set[str]:
    """Every name in a file, of variables and functions."""
    found: set[str] = set()
    for it in walk(file):
        if isinstance(it, (Name, Variable, Formal, Function, Call)):
            found.add(it.name)
    return found


def as_block(it: Statement) -> tuple[Statement, ...]:
    """The statements of a block, or the one statement."""
    return it.items if isinstance(it, Block) else (it,)
