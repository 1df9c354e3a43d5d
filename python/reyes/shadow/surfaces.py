"""Surfaces that look up the lights' maps, and surfaces that draw them: texts made of a scene's own shaders and of the stock's.

The look-ups are put at the front of a surface's body, parameters are added, and each `diffuse` and `specular` of the body becomes a loop
over the lights before its statement, where each light's colour is multiplied by how much of it comes. The rest of the text stays.
"""
from __future__ import annotations

from collections.abc import Iterator, Sequence
from dataclasses import dataclass
from importlib import resources

from reyes import shader
from reyes.errors import Trouble

STOCK = ("matte", "plastic", "metal", "shinymetal")
MOST_LIGHTS = 4
SUMS = ("diffuse", "specular")
# What the surfaces that are lit have besides what each light gives.
SHARED = "\n  float shadow_taps = 24, shadow_search = 8, shadow_displaced = 0;"
OPENING, CLOSING = ("(", "{"), (")", "}")


@dataclass(frozen=True)
class Lit:
    """A surface with look-ups: its text, and how many of its sums over lights have no shadows, since they stand where no loop can."""

    text: bytes
    left: int


def library(name: str) -> str:
    """A text of the package."""
    return (resources.files("reyes.shadow") / "library" / f"{name}.sl").read_text("latin-1")


def stock(name: str) -> bytes | None:
    """The text of a surface of the stock that lights fall on, or None."""
    return library(name).encode() if name in STOCK else None


def lit(text: bytes, name: str, lights: int) -> Lit | None:
    """A surface that looks up the maps of so many lights; None where it has no sum over lights. Raises Trouble where it is no surface."""
    found = _Surface(text, name)
    loops = list(found.loops(lights))
    made = [it for it in loops if it is not None]
    if not loops and not any(it.text in SUMS for it in found.tokens if it.end <= found.body[0]):
        return None
    places = range(1, lights + 1)
    edits = [(found.closing, found.closing, found.semicolon() + SHARED + "".join(_of(library("parameters"), k) for k in places))]
    edits.append((found.body[0] + 1, found.body[0] + 1, "\n" + "".join(_of(library("seen"), k) for k in places)))
    edits += [(begin, begin, before) for begin, _, _, before, _ in made] + [(begin, end, sum_of) for _, begin, end, _, sum_of in made]
    in_functions = sum(it.text in SUMS for it in found.tokens if it.end <= found.body[0])
    return Lit(_edited(text, edits), in_functions + sum(it is None for it in loops))


def caster(text: bytes, name: str) -> bytes:
    """A surface that draws a light's map, with the opacity of its own. Raises Trouble where it is no surface."""
    close = _Surface(text, name).body[1] - 1
    return text[:close] + b";" + library("cast_end").encode() + text[close:]


def mirroring(text: bytes, name: str, kind: str = "mirror") -> bytes:
    """A surface that shows what it mirrors, by a picture that its request names: "mirror" by its place on the screen, "ball" by the direction
    it mirrors. Raises Trouble where it is no surface.
    """
    found = _Surface(text, name)
    end = found.body[1] - 1
    edits = [(found.closing, found.closing, found.semicolon() + library(f"{kind}_parameters")), (end, end, ";" + library(f"{kind}_end"))]
    return _edited(text, edits)


def plain_caster() -> bytes:
    """The surface that draws a light's map where opacity is that of the attributes."""
    return caster(library("cast").encode(), "cast")


def has_own_opacity(text: bytes, name: str) -> bool:
    """Whether a surface's Oi may be something else than Os."""
    found = _Surface(text, name)
    words = [it.text for it in found.inside]
    sets = [at for at, (one, two) in enumerate(zip(words, words[1:])) if one == "Oi" and two in ("=", "+=", "-=", "*=", "/=")]
    return any(words[at + 1 : at + 4] != ["=", "Os", ";"] for at in sets)


Loop = tuple[int, int, int, str, str]


class _Surface:
    """A surface's text with the places that are built on: the closing parenthesis of its parameters, its body, the tokens of that."""

    def __init__(self, text: bytes, name: str) -> None:
        found = shader.declared(text)
        if found is None or found.kind != "surface":
            raise Trouble(f"{name}.sl: no surface's text (`python3 -m reyes check` says more)")
        self.text, self.body = text, found.body
        self.tokens = list(shader.tokens(text))
        self.inside = [it for it in self.tokens if found.body[0] < it.start < found.body[1] - 1]
        before = [it for it in self.tokens if it.end <= found.body[0]]
        opening = next(at for at in range(len(before)) if before[at].text == "(" and before[at - 1].text == found.name and before[at - 2].text == "surface")
        self.closing = before[-1].start
        self.parameters = text[before[opening].end : self.closing].decode("latin-1")

    def semicolon(self) -> str:
        """What ends the last parameter before further ones."""
        return "" if self.parameters.strip() == "" or self.parameters.rstrip().endswith(";") else ";"

    def loops(self, lights: int) -> Iterator[Loop | None]:
        """For each sum over lights in the body: where its statement begins, where the call begins and ends, the loop that goes before the
        statement, and what stands in the call's place; None where no loop can stand before it.
        """
        end = -1
        for at, it in enumerate(self.inside[:-1]):
            if it.start < end or it.text not in SUMS or self.inside[at + 1].text != "(":
                continue
            close = _match(self.inside, at + 1)
            end = self.inside[close].end
            begin = self._statement(at)
            arguments = [part.decode("latin-1") for part in self._arguments(at + 2, close)]
            if begin is None or len(arguments) != (1 if it.text == "diffuse" else 3):
                yield None
                continue
            yield (self.inside[begin].start, it.start, end, _loop(it.text, arguments, at, lights), f"sh_sum{at}")

    def _statement(self, at: int) -> int | None:
        """The first token of the statement in which a token stands, or None where nothing can be put before it."""
        depth = 0
        while at > 0:
            word = self.inside[at - 1].text
            if depth == 0 and word in ("{", "}", ";"):
                break
            depth = max(0, depth + (word == ")") - (word == "("))
            at -= 1
        return None if self.inside[at].text == "else" else at

    def _arguments(self, at: int, close: int) -> Iterator[bytes]:
        """The texts of a call's arguments."""
        depth, begin = 0, self.inside[at].start
        for it in self.inside[at:close]:
            depth += (it.text in OPENING) - (it.text in CLOSING)
            if it.text == "," and depth == 0:
                yield self.text[begin : it.start]
                begin = it.end
        yield self.text[begin : self.inside[close].start]


def _loop(call: str, arguments: Sequence[str], at: int, lights: int) -> str:
    """The loop over lights that sums what a call of `diffuse` or `specular` does, each light by how much of it comes. A light is known by
    its place, or a distant one by its direction: P + L is the place to the last bit.
    """
    head = f"color sh_sum{at} = 0;\n  vector sh_to{at} = normalize({arguments[0]});\n  "
    light = "illuminance(P) {\n"
    part = f"Cl * max(0, normalize(L) . sh_to{at})"
    if call == "specular":
        head += f"vector sh_eye{at} = {arguments[1]};\n  float sh_exponent{at} = 1 / ({arguments[2]});\n  "
        light = f"illuminance(P) if (normalize(L) . sh_to{at} >= 0) {{\n"
        part = f"Cl * pow(max(0, sh_to{at} . normalize(normalize(L) + sh_eye{at})), sh_exponent{at})"
    known = "".join(
        f"    if (distance(shadow_parallel{k} == 1 ? normalize(L) : vector (P + L), shadow_mark{k}) < 0.01) sh_by = shadow_seen{k};\n" for k in range(1, lights + 1)
    )
    return f"{head}{light}    color sh_by = 1;\n{known}    sh_sum{at} += sh_by * ({part});\n  }}\n  "


def _of(text: str, light: int) -> str:
    return text.replace("_K", str(light))


def _match(tokens: Sequence[shader.Token], at: int) -> int:
    """The place of the token that closes the bracket at a place."""
    depth = 0
    for place in range(at, len(tokens)):
        depth += (tokens[place].text in OPENING) - (tokens[place].text in CLOSING)
        if depth == 0:
            return place
    return len(tokens) - 1


def _edited(text: bytes, edits: Sequence[tuple[int, int, str]]) -> bytes:
    """A text with parts replaced."""
    parts, at = [], 0
    for begin, end, new in sorted(edits, key=lambda it: it[:2]):
        parts += [text[at:begin], new.encode("latin-1")]
        at = end
    return b"".join([*parts, text[at:]])
