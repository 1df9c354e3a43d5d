"""A tree as text in the grammar of docs/SHADING.md."""
from __future__ import annotations

from collections.abc import Sequence

from reyes.bring.shaders.expressions import SIGNS
from reyes.bring.shaders.tree import (
    Block, Call, Cast, Choice, Declare, Do, Expression, File, For, Formal, Function, If, Infix, Item, Items, Jump, Lights, Name, Number,
    Parts, Prefix, Return, Set, Shader, Statement, String, While,
)

TIGHTEST = 9


def file_text(file: File) -> str:
    """The whole text of a file."""
    return "\n".join([*map(function_text, file.functions), shader_text(file.shader)]) + "\n"


def shader_text(shader: Shader) -> str:
    """A shader."""
    return f"{shader.kind} {shader.name}({formals_text(shader.formals)}) {statement(shader.body, 0)}"


def function_text(function: Function) -> str:
    """A function."""
    return f"{function.type} {function.name}({formals_text(function.formals)}) {statement(function.body, 0)}"


def formals_text(formals: Sequence[Formal]) -> str:
    """Parameters or formals."""
    found = []
    for it in formals:
        length = f"[{expression(it.length)}]" if it.length is not None else ""
        value = f" = {expression(it.value)}" if it.value is not None else ""
        words = ("output" if it.output else "", it.detail, it.type, f"{it.name}{length}{value}")
        found.append(" ".join(word for word in words if word))
    return "; ".join(found) + (";" if found and formals[-1].value is not None else "")


def expression(it: Expression, least: int = 0) -> str:
    """An expression, in parentheses where it binds less tightly than it has to."""
    match it:
        case Number(text) | String(text):
            return text
        case Name(name):
            return name
        case Call(name, arguments):
            return f"{name}({', '.join(map(expression, arguments))})"
        case Item(value, index):
            return f"{expression(value, TIGHTEST)}[{expression(index)}]"
        case Items(values):
            return "{ " + ", ".join(map(expression, values)) + " }"
        case Prefix(sign, value):
            return _wrapped(sign + expression(value, TIGHTEST), least > TIGHTEST)
        case Infix(sign, left, right):
            own = SIGNS[sign]
            chained = own + 1 if own in (3, 4) else own
            return _wrapped(f"{expression(left, chained)} {sign} {expression(right, own + 1)}", least > own)
        case Choice(condition, yes, no):
            return _wrapped(f"{expression(condition, 1)} ? {expression(yes)} : {expression(no)}", least > 0)
        case Set(sign, target, value):
            return _wrapped(f"{expression(target)} {sign} {expression(value)}", least > 0)
        case Parts(kind, space, values):
            return f"{_head(kind, space)}({', '.join(map(expression, values))})"
        case Cast(kind, space, value):
            return _head(kind, space) + _after(value)
    raise AssertionError(it)


def _head(kind: str, space: String | None) -> str:
    """A type and a space's name, with a blank after each."""
    return (kind + " " if kind else "") + (space.text + " " if space else "")


def _after(value: Expression) -> str:
    """A value after a type."""
    if isinstance(value, (Number, String, Name, Call, Cast)):
        return expression(value)
    return f"({expression(value)})"


def _wrapped(text: str, inside: bool) -> str:
    """A text, in parentheses where that is asked for."""
    return f"({text})" if inside else text


def statement(it: Statement, depth: int) -> str:
    """A statement without the blanks before its first line."""
    match it:
        case Block(items):
            pad = "    " * depth
            return "{\n" + "".join(f"{pad}    {statement(one, depth + 1)}\n" for one in items) + pad + "}"
        case Declare(detail, extern, kind, variables):
            words = " ".join(word for word in ("extern" if extern else "", detail, kind) if word)
            return f"{words} " + ", ".join(_variable(one.name, one.length, one.value) for one in variables) + ";"
        case Do(value):
            return expression(value) + ";"
        case If(condition, yes, no):
            return f"if ({expression(condition)}) {_inner(yes, no, depth)}"
        case While(condition, body):
            return f"while ({expression(condition)}) {statement(body, depth)}"
        case For(first, condition, last, body):
            return f"for ({_row(first)}; {expression(condition)}; {_row(last)}) {statement(body, depth)}"
        case Lights(word, arguments, body, otherwise):
            return f"{word}({_row(arguments)}) {_inner(body, otherwise, depth)}"
        case Jump(word, levels):
            return word + (f" {levels};" if levels > 1 else ";")
        case Return(value):
            return f"return {expression(value)};" if value is not None else "return;"
        case Function():
            return function_text(it)
    raise AssertionError(it)


def _inner(yes: Statement, no: Statement | None, depth: int) -> str:
    """A statement and perhaps an `else`; what stands before an `else` is a block, so that it belongs to the right `if`."""
    if no is None:
        return statement(yes, depth)
    first = yes if isinstance(yes, Block) else Block((yes,))
    return f"{statement(first, depth)} else {statement(no, depth)}"


def _row(values: Sequence[Expression]) -> str:
    """Expressions with commas between them."""
    return ", ".join(map(expression, values))


def _variable(name: str, length: Expression | None, value: Expression | None) -> str:
    """A variable of a declaration."""
    size = f"[{expression(length)}]" if length is not None else ""
    return f"{name}{size}" + (f" = {expression(value)}" if value is not None else "")
