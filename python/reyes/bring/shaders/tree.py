"""The syntax tree of a shader's text, with the place of each part, and walks over it.

Nodes are never changed: a pass makes new ones. Two nodes are equal where they say the same, wherever they stand.
"""
from __future__ import annotations

from collections.abc import Callable, Iterator
from dataclasses import dataclass, field, fields, replace
from typing import Any, NamedTuple, TypeVar


class Place(NamedTuple):
    """A line, counted from 1, of a file as it is told to the user."""

    file: str
    line: int


NOWHERE = Place("", 0)


class Refused(Exception):
    """The text can't be brought: `at` is the place, and `words` say why."""

    def __init__(self, at: Place, words: str) -> None:
        super().__init__(words)
        self.at = at
        self.words = words


class Entangled(Refused):
    """A derivative in a function that is called where it may not be: the functions with derivatives have to be put in place."""


@dataclass(frozen=True)
class Node:
    """A part of the tree."""

    at: Place = field(default=NOWHERE, compare=False, kw_only=True)


@dataclass(frozen=True)
class Expression(Node):
    """What has a value."""


@dataclass(frozen=True)
class Statement(Node):
    """What does something."""


@dataclass(frozen=True)
class Number(Expression):
    """A number as it is written."""

    text: str


@dataclass(frozen=True)
class String(Expression):
    """A string as it is written, quotes included."""

    text: str

    @property
    def words(self) -> str:
        """What stands between the quotes."""
        return self.text[1:-1]


@dataclass(frozen=True)
class Name(Expression):
    """A variable."""

    name: str


@dataclass(frozen=True)
class Prefix(Expression):
    """`-` or `!` before a value."""

    sign: str
    value: Expression


@dataclass(frozen=True)
class Infix(Expression):
    """Two values and the sign between them."""

    sign: str
    left: Expression
    right: Expression


@dataclass(frozen=True)
class Choice(Expression):
    """`condition ? yes : no`."""

    condition: Expression
    yes: Expression
    no: Expression


@dataclass(frozen=True)
class Parts(Expression):
    """Values in parentheses after a type, a space's name perhaps between them; the type "" stands for parentheses alone."""

    type: str
    space: String | None
    values: tuple[Expression, ...]


@dataclass(frozen=True)
class Cast(Expression):
    """A type before a value, a space's name perhaps between them."""

    type: str
    space: String | None
    value: Expression


@dataclass(frozen=True)
class Call(Expression):
    """A function's value."""

    name: str
    arguments: tuple[Expression, ...]


@dataclass(frozen=True)
class Item(Expression):
    """One element of an array, or one channel of a texture's file."""

    value: Expression
    index: Expression


@dataclass(frozen=True)
class Set(Expression):
    """An assignment; its value is what is assigned."""

    sign: str
    target: Expression
    value: Expression


@dataclass(frozen=True)
class Items(Expression):
    """The values of an array in braces."""

    values: tuple[Expression, ...]


@dataclass(frozen=True)
class Variable(Node):
    """A name that is declared: its length where it is an array, and its first value."""

    name: str
    length: Expression | None
    value: Expression | None


@dataclass(frozen=True)
class Block(Statement):
    """Statements in braces."""

    items: tuple[Statement, ...]


@dataclass(frozen=True)
class Declare(Statement):
    """A declaration of variables; `detail` is "uniform", "varying" or ""; an extern one is of variables outside of the function."""

    detail: str
    extern: bool
    type: str
    variables: tuple[Variable, ...]


@dataclass(frozen=True)
class Do(Statement):
    """An expression for what it does: an assignment or a call."""

    value: Expression


@dataclass(frozen=True)
class If(Statement):
    """`if`, with or without `else`."""

    condition: Expression
    yes: Statement
    no: Statement | None


@dataclass(frozen=True)
class While(Statement):
    """`while`."""

    condition: Expression
    body: Statement


@dataclass(frozen=True)
class For(Statement):
    """`for`, with the assignments before the first turn and those after each."""

    first: tuple[Expression, ...]
    condition: Expression
    last: tuple[Expression, ...]
    body: Statement


@dataclass(frozen=True)
class Lights(Statement):
    """`illuminance`, `illuminate`, `solar` or `gather` over a statement; the last may have an `else`."""

    word: str
    arguments: tuple[Expression, ...]
    body: Statement
    otherwise: Statement | None = None


@dataclass(frozen=True)
class Jump(Statement):
    """`break` or `continue`, out of that many loops."""

    word: str
    levels: int = 1


@dataclass(frozen=True)
class Return(Statement):
    """`return`."""

    value: Expression | None


@dataclass(frozen=True)
class Formal(Node):
    """A parameter of a shader or a formal of a function."""

    output: bool
    detail: str
    type: str
    name: str
    length: Expression | None
    value: Expression | None


@dataclass(frozen=True)
class Function(Statement):
    """A function; as a statement, one that is declared inside another or in a shader."""

    type: str
    name: str
    formals: tuple[Formal, ...]
    body: Block


@dataclass(frozen=True)
class Shader(Node):
    """A shader: its kind, name, parameters and text."""

    kind: str
    name: str
    formals: tuple[Formal, ...]
    body: Block


@dataclass(frozen=True)
class File(Node):
    """The functions of a file, and its shader."""

    functions: tuple[Function, ...]
    shader: Shader


N = TypeVar("N", bound=Node)


HELD: dict[type[Node], tuple[str, ...]] = {}


def _holders(kind: type[Node]) -> tuple[str, ...]:
    """The fields of a kind of node that can hold nodes."""
    if kind not in HELD:
        HELD[kind] = _found(kind)
    return HELD[kind]


def _found(kind: type[Node]) -> tuple[str, ...]:
    """The same, looked for."""
    return tuple(it.name for it in fields(kind) if it.name not in ("at", "text", "name", "type", "sign", "word", "detail", "levels"))


def children(node: Node) -> Iterator[Node]:
    """The parts of a node, in the order of the text."""
    for name in _holders(type(node)):
        held = getattr(node, name)
        if isinstance(held, Node):
            yield held
        elif isinstance(held, tuple):
            yield from held


def mapped(node: N, change: Callable[[Any], Any]) -> N:
    """The node with `change` of each of its parts in place of the part."""
    new: dict[str, Any] = {}
    for name in _holders(type(node)):
        held = getattr(node, name)
        if isinstance(held, Node):
            made = change(held)
            if made is not held:
                new[name] = made
        elif isinstance(held, tuple) and held:
            row = tuple(change(it) for it in held)
            if any(a is not b for a, b in zip(row, held)):
                new[name] = row
    return replace(node, **new) if new else node


def walk(*nodes: Node | None) -> Iterator[Node]:
    """All parts of some nodes, each before its own parts, in the order of the text."""
    todo = [it for it in reversed(nodes) if it is not None]
    while todo:
        node = todo.pop()
        yield node
        todo.extend(reversed(list(children(node))))


def own(*nodes: Node | None) -> Iterator[Node]:
    """All parts of some nodes; of functions inside, the functions alone."""
    todo = [it for it in reversed(nodes) if it is not None]
    while todo:
        node = todo.pop()
        yield node
        if not isinstance(node, Function) or any(node is it for it in nodes):
            todo.extend(reversed(list(children(node))))


def declared(*nodes: Node | None) -> Iterator[str]:
    """The names of the variables that are declared in some statements, or of a function; those of functions inside are their own."""
    for it in own(*nodes):
        if isinstance(it, Declare) and not it.extern:
            yield from (variable.name for variable in it.variables)
        elif isinstance(it, Formal):
            yield it.name


def targets(*nodes: Node | None) -> set[str]:
    """The names of the variables that are assigned to in some statements."""
    found = set()
    for it in walk(*nodes):
        if isinstance(it, Set):
            target = it.target.value if isinstance(it.target, Item) else it.target
            if isinstance(target, Name):
                found.add(target.name)
    return found


def renamed(node: N, table: dict[str, Expression]) -> N:
    """The node with other expressions in place of some variables. Where a variable is declared the table must give it a name.

    A function inside keeps its own variables.
    """

    def change(it: Any) -> Any:
        if isinstance(it, Name):
            return table.get(it.name, it)
        if isinstance(it, Function):
            own = set(declared(it))
            inner = {name: value for name, value in table.items() if name not in own}
            return mapped(it, lambda part: renamed(part, inner))
        made = mapped(it, change)
        if isinstance(made, Variable) and isinstance(new := table.get(made.name), Name):
            return replace(made, name=new.name)
        return made

    result: N = change(node)
    return result


def block(*items: Statement, at: Place = NOWHERE) -> Block:
    """A block of statements."""
    return Block(items, at=at)
