"""Statements over lights, and what asks for rays, shadows and messages: the profile has lights alone."""
from __future__ import annotations

from reyes.bring.shaders import statements, values
from reyes.bring.shaders.table import ZERO, lowers
from reyes.bring.shaders.tree import (
    Block, Call, Cast, Do, Expression, Infix, Lights, Name, Number, Parts, Place, Prefix, Refused, Set, String,
)
from reyes.bring.shaders.types import type_of
from reyes.bring.shaders.work import LEFT, NEAR, SAME, Work

# What asks for rays, shadows or points in files: the type of its value, and what stands for it.
RAYS = {
    "trace": ("color", "0"), "environment": ("color", "0"), "indirectdiffuse": ("color", "0"), "photonmap": ("color", "0"),
    "caustic": ("color", "0"), "subsurface": ("color", "0"), "transmission": ("color", "1"), "visibility": ("color", "1"),
    "shadow": ("float", "0"), "areashadow": ("float", "0"), "occlusion": ("float", "0"), "deepshadow": ("float", "0"),
}
WORDS = {"0": "nothing", "1": "all that there is"}
MESSAGES = (
    "lightsource", "surface", "displacement", "atmosphere", "incident", "opposite", "attribute", "option", "rendererinfo", "rayinfo",
    "textureinfo", "raylevel", "isshadowray", "isindirectray", "raydepth", "bake", "bake3d", "texture3d",
)
AXIS = Parts("vector", String('"shader"'), (Number("0"), Number("0"), Number("1")))


def put(work: Work, it: Lights) -> None:
    """Puts `illuminance`, `illuminate` or `solar`; `gather` finds nothing."""
    if it.word == "gather":
        work.tell(LEFT, it.at, "`gather` taken as finding nothing")
        if it.otherwise is not None:
            work.put(statements.body(work, it.otherwise))
        return
    if it.word == "illuminance":
        if work.kind == "volume":
            work.tell(LEFT, it.at, "the lights of a volume taken as one white light from above")
            work.put(statements.body(work, it.body))
            return
        if work.kind != "surface":
            work.tell(LEFT, it.at, f"`illuminance` in a {work.kind} left out")
            return
        if work.over:
            raise Refused(it.at, "`illuminance` in another")
    elif work.kind != "light":
        raise Refused(it.at, f"`{it.word}` in a {work.kind}")
    arguments = _arguments(work, it)
    before, work.over = work.over, it.word
    inner = statements.body(work, it.body)
    work.over = before
    work.put(Lights(it.word, arguments, inner, at=it.at))


def _arguments(work: Work, it: Lights) -> tuple[Expression, ...]:
    """The arguments of a statement over lights: two or three of the standard's, as one or three of the profile's."""
    found = list(it.arguments)
    if it.word == "illuminance" and found and type_of(work, found[0]) == "string":
        work.tell(LEFT, it.at, "the category of lights left out: all lights are taken")
        found = found[1:]
    strings = [place for place, one in enumerate(found) if type_of(work, one) == "string"]
    if strings:
        work.tell(LEFT, it.at, f"further parameters of `{it.word}` left out")
        found = found[:strings[0]]
    if it.word == "solar" and len(found) < 2:
        work.tell(NEAR, it.at, "light from all directions taken as from one, along the light's z axis" if not found else "`solar` given an angle")
        found = [*(found or [AXIS]), ZERO]
    if len(found) == 2 and it.word != "solar":
        work.tell(SAME, it.at, f"`{it.word}` given the angle of a half space")
        found.append(Infix("/", Name("PI", at=it.at), Number("2"), at=it.at))
    if len(found) not in ((2,) if it.word == "solar" else (1, 3)):
        raise Refused(it.at, f"{len(it.arguments)} arguments of `{it.word}`")
    wants = ("vector", "float") if it.word == "solar" else ("point", "vector", "float")
    return tuple(values.converted(work, one, want) for one, want in zip(found, wants))


def _constant(kind: str, text: str, at: Place) -> Expression:
    """A colour or a float of one number."""
    number = Number(text, at=at)
    return Cast("color", None, number, at=at) if kind == "color" else number


@lowers(*RAYS)
def rays(work: Work, it: Call, want: str) -> Expression:
    """What asks for rays or shadows: nothing is hit, and nothing shadows."""
    kind, text = RAYS[it.name]
    work.tell(LEFT, it.at, f"`{it.name}` taken as {WORDS[text]}")
    return _constant("float" if want == "float" else kind, text, it.at)


@lowers(*MESSAGES)
def messages(work: Work, it: Call, want: str) -> Expression:
    """What asks other shaders or the renderer: there is no answer, and the variable keeps what it has."""
    work.tell(LEFT, it.at, f"`{it.name}` taken as without an answer: 0")
    return ZERO


@lowers("printf")
def printf(work: Work, it: Call, want: str) -> Expression:
    """`printf` says nothing."""
    work.tell(SAME, it.at, "`printf` left out")
    return ZERO


@lowers("phong")
def phong(work: Work, it: Call, want: str) -> Expression:
    """`phong(N, V, size)`, by the standard's text of it."""
    if len(it.arguments) != 3 or work.kind != "surface" or work.over:
        raise Refused(it.at, "`phong` with other than three arguments, in an `illuminance`, or in no surface")
    work.tell(SAME, it.at, "`phong` written as the sum over lights that the standard has for it")
    at = it.at
    normal, view, size = (values.converted(work, one, kind) for one, kind in zip(it.arguments, ("normal", "vector", "float")))
    normal, size = values.named(work, normal), values.named(work, size)
    unit = Call("normalize", (normal,), at=at)
    mirrored = work.temporary("mirrored", "vector", Call("reflect", (Prefix("-", Call("normalize", (view,))), unit), at=at), at)
    found = work.temporary("phong", "color", ZERO, at)
    cosine = Call("max", (ZERO, Infix(".", mirrored, Call("normalize", (Name("L"),)))), at=at)
    part = Infix("*", Name("Cl"), Call("pow", (cosine, size)), at=at)
    half = Infix("/", Name("PI"), Number("2"), at=at)
    step = Do(Set("+=", found, part, at=at), at=at)
    work.put(Lights("illuminance", (Name("P"), normal, half), Block((step,), at=at), at=at))
    return found
