"""Defaults of parameters that the profile can't have as defaults: they are computed at the head of the shader's text.

The parameter gets a default that nobody gives, by which the text knows that the scene didn't give one.
"""
from __future__ import annotations

from dataclasses import replace

from reyes.bring.shaders.tree import (
    Call, Cast, Choice, Declare, Do, Expression, Formal, If, Infix, Name, Number, Parts, Prefix, Set, Shader, Statement, String, Variable, block,
    renamed, walk,
)
from reyes.bring.shaders.types import NATIVE
from reyes.bring.shaders.work import SAME, TRIPLES, Work

NOBODY = Number("32109.5")
SPACES = ("current", "camera", "shader", "rgb")
KINDS = (Number, String, Prefix, Infix, Choice, Parts, Cast)
SEEING = ("ambient", "diffuse", "specular", "Du", "Dv", "calculatenormal", "depth", "faceforward")


def is_plain(value: Expression) -> bool:
    """Whether the profile takes an expression as a default: numbers, its own functions of them, and spaces that are known at once."""
    for it in walk(value):
        if isinstance(it, (Parts, Cast)) and it.space is not None and it.space.words not in SPACES:
            return False
        if isinstance(it, Call) and (it.name not in NATIVE or it.name in SEEING):
            return False
        if not (isinstance(it, (*KINDS, Call)) or (isinstance(it, Name) and it.name == "PI")):
            return False
    return True


def settled(work: Work, shader: Shader) -> Shader:
    """The shader with plain defaults; the others are computed in its text, in their order."""
    formals: list[Formal] = []
    first: list[Statement] = []
    table: dict[str, Expression] = {}
    for it in shader.formals:
        if it.value is None or it.length is not None or it.type not in (*TRIPLES, "float") or is_plain(it.value):
            formals.append(it)
            continue
        work.tell(SAME, it.at, f"the default of `{it.name}` computed in the shader's text")
        formals.append(replace(it, value=_nobody(it)))
        own = Name(work.fresh(it.name), at=it.at)
        first += _given(it, own, renamed(it.value, table))
        table[it.name] = own
    if not table:
        return shader
    body = renamed(shader.body, table)
    return replace(shader, formals=tuple(formals), body=block(*first, *body.items, at=body.at))


def _nobody(it: Formal) -> Expression:
    """The value that nobody gives."""
    return NOBODY if it.type == "float" else Parts(it.type, None, (NOBODY,) * 3, at=it.at)


def _given(it: Formal, own: Name, value: Expression) -> list[Statement]:
    """A variable with the parameter's value, or with its default where nobody gave one."""
    detail = "varying" if it.detail == "varying" else "uniform"
    declared = Declare(detail, False, it.type, (Variable(own.name, None, Name(it.name, at=it.at), at=it.at),), at=it.at)
    test = Infix("==", Name(it.name, at=it.at), _nobody(it), at=it.at)
    return [declared, If(test, Do(Set("=", own, value, at=it.at), at=it.at), None, at=it.at)]
