"""Requests that name shaders: the shader that is used, its parameters and the textures among them; lights and their handles."""
from __future__ import annotations

import re

import numpy as np

from reyes import shader as texts

from . import matrices, stand_ins, variables
from .changes import LEFT, NEAR, SAME
from .shaders import Parameter
from .shelf import Known
from .state import BLOCKS, ENDS, MOVES
from .text import Argument, Floats, Request
from .textures import FILE
from .work import Passes, Work

KINDS = {"Surface": "surface", "Displacement": "displacement", "Atmosphere": "volume", "LightSource": "light", "AreaLightSource": "light"}
AHEAD = 4096


def chosen(work: Work, request: Request, at: int) -> tuple[Known, bool] | None:
    """The shader that a request uses, and whether it stands in for another; None where there is none or it may not be changed."""
    name, kind = request.word(0) or "", KINDS[request.name]
    known = work.shelf.find(name, kind)
    if known is not None:
        if known.name != name:
            work.tell(SAME, request, "folders and endings of shaders' names taken away")
        return known, False
    lists = [variables.token_of(token, work.declared)[0] for token, _ in variables.pairs(request.args[at:])]
    found = work.shelf.stand_in(name, kind, lists)
    why = f"can't be used ({work.shelf.troubles[name]})" if name in work.shelf.troubles else "isn't here"
    if found is None:
        work.tell(LEFT, request, f"{kind} `{name}` {why}: left out")
        return None
    known, row = found
    if not work.tell(row.change, request, f"{kind} `{name}` {why}: `{known.name}` {stand_ins.nearness(row.change)}"):
        return None
    work.shelf.use(known)
    return known, True


def fitted(value: Argument, own: Parameter, given: variables.Kind | None) -> list[Argument] | None:
    """A value as those of a shader's parameter, one for each name that it has there, or None where it doesn't fit."""
    if own.type == "string":
        words = variables.strings(value)
        return [*words] if own.length and len(words) == own.length else [value] if len(words) == 1 and not own.length else None
    numbers, width = variables.floats(value), variables.WIDTHS.get(own.type, 0)
    if own.length:
        return list(numbers.reshape(own.length, width)) if len(numbers) == own.length * width else None
    if len(numbers) == width:
        return [value]
    if len(numbers) == 1 and own.type == "color":
        return [np.repeat(numbers, 3)]
    return [numbers[:3]] if width == 3 and given is not None and given.type == "hpoint" and len(numbers) == 4 else None


def parameters(work: Work, request: Request, at: int, known: Known, stands_in: bool) -> tuple[list[Argument], bool]:
    """The list of a shader's request with the parameters that the shader has, in its types, and whether that changed the list."""
    row: list[Argument] = []
    changed = False
    for token, value in variables.pairs(request.args[at:]):
        name, kind = variables.token_of(token, work.declared)
        key = stand_ins.parameter(name, known.parameters) if stands_in else name
        own = known.parameters.get(key or "")
        held = fitted(value, own, kind) if own else None
        if own is None or held is None:
            why = f"it wants one {own.type}" if own else "the shader has none of that name"
            keep = not stands_in and not work.tell(LEFT, request, f"parameter `{name}` of `{known.name}` left out: {why}")
            row += [token, value] if keep else []
            changed = changed or not keep
            continue
        if own.type == "string" and known.textures is not None:
            held = [textured(work, request, new, it, known) for new, it in zip(own.names, held)]
        fits = kind is not None and kind.is_native() and kind.type.replace("integer", "float") == own.type and own.names == (name,)
        if not fits and not stands_in:
            work.tell(SAME, request, "types of parameters taken from the shader")
        row += [it for new, one in zip(own.names, held) for it in (token if fits else f"uniform {own.type} {new}", one)]
        changed = changed or not fits or held[0] is not value
    return row, changed


def textured(work: Work, request: Request, name: str, value: Argument, known: Known) -> Argument:
    """A string that may name a texture, under the name that the texture is written with."""
    word = variables.strings(value)[0]
    certain = name in (known.textures or ())
    if not word or not (certain or FILE.search(word)):
        return value
    new = work.textures.use(word, lambda kind, words: work.tell(kind, request, words))
    return value if new == word else new


def literals(work: Work, request: Request, known: Known) -> None:
    """The textures that a shader's own text names: in look-ups, and as what parameters are where they aren't given."""
    if known.text is None or known.textures is None or known.name in work.seen:
        return
    work.seen.add(known.name)
    text, shift = work.shelf.files[known.name], 0
    for token in list(texts.tokens(text)):
        word = token.text[1:-1]
        if token.kind != "string" or not FILE.search(word) and token.text not in known.textures or not word:
            continue
        new = work.textures.use(word, lambda kind, words: work.tell(kind, request, words)).encode("latin-1", "replace")
        begin, end = token.start + shift + 1, token.end + shift - 1
        text, shift = text[:begin] + new + text[end:], shift + len(new) - len(word)
    work.shelf.files[known.name] = text


def shader(work: Work, request: Request) -> list[Request] | None:
    """A `Surface`, `Displacement` or `Atmosphere` whose shader is here, with the parameters that it has."""
    kind = KINDS[request.name]
    if not (request.word(0) or "").strip():
        work.tell(SAME, request, f"`{request.name}` without a name taken out")
        return []
    found = chosen(work, request, 1)
    if found is None:
        work.takes(kind, ())
        return [] if LEFT in work.changes.may and kind != "surface" else None
    known, stands_in = found
    literals(work, request, known)
    work.takes(kind, known.parameters)
    row, changed = parameters(work, request, 1, known, stands_in)
    if not changed and known.name == request.word(0) and isinstance(request.args[0], str):
        return None
    return [request.made(request.name, known.name, *row)]


def light(work: Work, request: Request) -> list[Request] | None:
    """A light whose shader is here, under a number, and before it `Illuminate` where the number stands for another that is on."""
    if len(request.args) < 2:
        return None
    if request.name == "AreaLightSource":
        if not work.tell(NEAR, request, "`AreaLightSource` turned into a point light in the middle of its surface"):
            return None
        request = in_the_middle(work, request)
    handle = handle_of(work, request, 1)
    before = []
    if handle in work.state.attributes.lights:
        work.tell(SAME, request, "a light whose number is given again turned off first")
        before = [request.made("Illuminate", handle, 0.0)]
    work.state.set(lights=work.state.attributes.lights | {handle})
    found = chosen(work, request, 2)
    if found is None:
        return [] if LEFT in work.changes.may else None
    known, stands_in = found
    literals(work, request, known)
    row, changed = parameters(work, request, 2, known, stands_in)
    first, second = request.args[:2]
    same = isinstance(first, str) and first == known.name and isinstance(second, float) and request.text is not None
    if not changed and same and not before:
        return None
    return [*before, request.made("LightSource", known.name, handle, *row)]


def handle_of(work: Work, request: Request, at: int) -> float:
    """A light's number; that of a name is one that no light of the scene has."""
    it = request.args[at]
    if isinstance(it, float):
        return it
    word = request.word(at)
    if word is None:
        return float(request.array(at)[0])
    work.tell(SAME, request, "names of lights turned into numbers")
    if word not in work.handles:
        number = len(work.handles) + 1001.0
        while number in work.numbers:
            number += 1
        work.handles[word] = number
        work.numbers.add(number)
    return work.handles[word]


def illuminate(work: Work, request: Request) -> list[Request] | None:
    """`Illuminate` of a light by its number."""
    if len(request.args) != 2:
        return None
    handle, on = handle_of(work, request, 0), request.numbers(1)[:1] != [0.0]
    lights = work.state.attributes.lights
    work.state.set(lights=lights | {handle} if on else lights - {handle})
    return None if isinstance(request.args[0], float) and isinstance(request.args[1], float) else [request.made("Illuminate", handle, float(on))]


def in_the_middle(work: Work, request: Request) -> Request:
    """An area light as a point light, in the middle of the points and bodies that follow in its block."""
    found, depth, m, saved = [np.zeros((0, 3))], 0, matrices.IDENTITY, list[Floats]()
    for it in work.following(AHEAD):
        if it.name in BLOCKS:
            depth, saved = depth + 1, [*saved, m]
        elif it.name in ENDS:
            depth -= 1
            if depth < 0:
                break
            m = saved.pop()
        elif it.name in MOVES:
            step = matrices.of_request(it.name, it.numbers())
            m = step if step is not None and it.name == "Transform" else m if step is None else step @ m
        elif it.name in ("Sphere", "Disk", "Cylinder", "Cone", "Torus"):
            found.append(m[None, 3, :3])
        else:
            p = variables.points_of(work.variables(it, list_start(it)))
            if p is not None:
                found.append(matrices.points(m, p))
    rows = np.concatenate(found)
    middle = rows.mean(axis=0) if len(rows) else np.zeros(3)
    kept = [(token, value) for token, value in variables.pairs(request.args[2:])
            if variables.token_of(token, work.declared)[0] in ("intensity", "lightcolor")]
    return request.made("LightSource", "pointlight", request.args[1], *variables.flat(kept), "from", middle)


def list_start(request: Request) -> int:
    """Where the list of a primitive begins: at the first string that stands before its points."""
    names = ("P", "Pw")
    return next((at for at, it in enumerate(request.args) if isinstance(it, str) and re.split(r"\s", it)[-1] in names), len(request.args))


def later(work: Work, request: Request) -> list[Request] | None:
    """`Bxdf` and `Light`, which came after the standard: a surface and a light that stand in for theirs. A name comes after that of the
    shader."""
    if request.word(0) is None or request.word(1) is None:
        return None
    if request.name == "Light":
        return light(work, request.made("LightSource", *request.args))
    return shader(work, request.made("Surface", request.word(0) or "", *request.args[2:]))


PASSES: Passes = {"Bxdf": (later,), "Light": (later,), **{name: (shader,) for name in ("Surface", "Displacement", "Atmosphere")},
                                       "LightSource": (light,), "AreaLightSource": (light,), "Illuminate": (illuminate,)}
