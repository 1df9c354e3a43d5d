"""The shaders of a scene: where each is found, what it takes, and the text that is written beside the scene."""
from __future__ import annotations

import re
from collections.abc import Mapping
from dataclasses import dataclass, field
from pathlib import Path

from reyes import shader as texts

from . import stand_ins
from .changes import NEVER, Changes
from .reading import Folders
from .shaders import Parameter, lower
from .text import Floats

ENDINGS = re.compile(r"\.(slo|slc|slx|sdl|sdr|slb|oso|sl)$", re.I)


@dataclass(frozen=True)
class Known:
    """A shader that can be used: the name of its file, its kind, its parameters with their types, its text (None for a stock one) and
    the names of parameters and the texts that it looks up as textures (None where it looks none up)."""

    name: str
    kind: str
    parameters: Mapping[str, Parameter]
    text: bytes | None
    textures: frozenset[str] | None = None


@dataclass
class Shelf:
    """The shaders that were asked for. `files` holds the texts that are written, by the names of their files without `.sl`."""

    folders: Folders
    changes: Changes
    spaces: Mapping[str, Floats] = field(default_factory=dict)
    known: dict[str, Known | None] = field(default_factory=dict)
    files: dict[str, bytes] = field(default_factory=dict)
    troubles: dict[str, str] = field(default_factory=dict)

    def find(self, name: str, kind: str) -> Known | None:
        """The shader of a name where there is one of this kind, in the folders or among the stock; None where there isn't."""
        if name not in self.known:
            self.known[name] = self.look(name)
        it = self.known[name]
        if it is not None and it.kind != kind:
            self.troubles[name] = f"`{name}` is a {it.kind}"
            it = None
        if it is not None and it.text is not None:
            self.files[it.name] = it.text
        return it

    def look(self, name: str) -> Known | None:
        base = ENDINGS.sub("", re.split(r"[/\\]", name)[-1])
        path = self.folders.find("shader", ENDINGS.sub("", name) + ".sl")
        if path is not None:
            return self.read(path, base)
        if base in stand_ins.STOCK:
            kind, types = stand_ins.STOCK[base]
            return Known(base, kind, plain(types), None)
        return None

    def read(self, path: Path, base: str) -> Known | None:
        """The shader of a file in the profile's words, or None, with its trouble noted, where it can't be put in them."""
        told = Changes(self.changes.may)
        try:
            data = path.read_bytes()
        except OSError as it:
            self.troubles[base] = f"{path.name}: {it.strerror}"
            return None
        found = lower(data, path.name, [path.parent, *self.folders.all("shader")], self.spaces, told)
        never = next((it for it in told if it.kind == NEVER), None)
        if never is not None:
            self.troubles[base] = f"{never.file}:{never.line}: {never.words}"
            return None
        self.changes.take(told)
        return Known(safe(base), found.kind, found.parameters, found.text, looked_up(found.text))

    def stand_in(self, name: str, kind: str, lists: list[str]) -> tuple[Known, stand_ins.StandIn] | None:
        """What stands in for a shader that can't be had."""
        found = stand_ins.stand_in(re.split(r"[/\\]", ENDINGS.sub("", name))[-1], kind, lists)
        if found is None:
            return None
        text = stand_ins.text(found.shader)
        if text is None:
            return Known(found.shader, kind, plain(stand_ins.STOCK[found.shader][1]), None), found
        declared = texts.declared(text)
        types = {it.name: it.type for it in declared.parameters} if declared else {}
        return Known(found.shader, kind, plain(types), text, looked_up(text)), found

    def use(self, known: Known) -> None:
        """Has a shader's text written."""
        if known.text is not None:
            self.files[known.name] = known.text


def plain(types: Mapping[str, str]) -> dict[str, Parameter]:
    """Uniform parameters of these types."""
    return {name: Parameter(name, type_, True, 0, (name,)) for name, type_ in types.items()}


def safe(name: str) -> str:
    """A name of letters, digits and `_`, which a file and a shader may have."""
    return re.sub(r"\W", "_", name, flags=re.ASCII)[:128] or "_"


def looked_up(text: bytes) -> frozenset[str] | None:
    """The names and strings that stand first in look-ups of textures; None where there is no look-up."""
    row = [it for it in texts.tokens(text)]
    found = [row[at + 2].text for at in range(len(row) - 2) if row[at].text == "texture" and row[at + 1].text == "("]
    return frozenset(found) if found else None
