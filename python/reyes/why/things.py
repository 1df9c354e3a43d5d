"""What an account's numbers stand for in the user's own files: the requests of the scene by their lines, and the shaders' texts."""
from __future__ import annotations

from functools import cached_property

from reyes import rib
from reyes.checking import shown
from reyes.files import Files
from reyes.shadow import surfaces
from reyes.why.account import Account, Primitive, Request
from reyes.why.markup import tag, text

# Colours that tell what stands on one line of the scene from what stands on another (Okabe and Ito's, and two more).
HUES = ("#0072b2", "#d55e00", "#009e73", "#cc79a7", "#7a5cd6", "#8a6d00", "#56b4e9", "#e69f00")
DRAWN = ("Patch", "PatchMesh", "Polygon", "PointsPolygons", "Sphere", "Cylinder", "Cone", "Disk")
LONGEST = 150  # characters of a line that is shown


class Things:
    """The files of a scene, as an account speaks of them. `name` is what the user calls the scene."""

    def __init__(self, account: Account, data: bytes, name: str, found: Files) -> None:
        self.name = name
        self._lines = data.decode("latin-1").split("\n")
        self._data, self._files = data, found
        seen = [fragment.cell.piece.primitive for sample in account.samples for fragment in sample.fragments]
        self.shaders = list(dict.fromkeys(use for primitive in seen for use in primitive.shaders))
        self._hues = {line: HUES[place % len(HUES)] for place, line in enumerate(dict.fromkeys(it.line for it in seen))}

    def hue(self, line: int) -> str:
        """The colour that tells what stands on a line from other things that the pixel sees."""
        return self._hues.get(line, HUES[0])

    def called(self, line: int) -> str:
        """What a primitive is called, by the line of its request: `Patch, line 41`."""
        names = self._drawn.get(line, set())
        return f"{next(iter(names)) if len(names) == 1 else 'primitive'}, line {line}"

    def mark(self, primitive: Primitive) -> str:
        """A primitive in a page: a point of its colour, and what it is called."""
        return tag("i", class_="hue", style=f"background:{self.hue(primitive.line)}") + text(self.called(primitive.line))

    def line(self, number: int) -> str:
        """The text of a line of the scene, cut where it is long."""
        text = self._lines[number - 1].strip() if 0 < number <= len(self._lines) else ""
        return text if len(text) <= LONGEST else text[:LONGEST].rstrip() + " …"

    def text(self, use: Request) -> str | None:
        """The text of a shader: that of its file, or of the stock's; None where it isn't at hand."""
        found = self._files.get(f"{use.name}.sl")
        data = found.path.read_bytes() if found is not None else surfaces.stock(use.name)
        return None if data is None else data.decode("utf-8", "replace").rstrip("\n")

    def file(self, use: Request) -> str:
        """What a shader's text is called: its file, as the user would type it, or that it is one of the stock."""
        found = self._files.get(f"{use.name}.sl")
        return f"{use.name}, of the stock" if found is None else shown(found.path)

    @cached_property
    def _drawn(self) -> dict[int, set[str]]:
        """The names of the requests that draw something, by their lines."""
        found: dict[int, set[str]] = {}
        for it in rib.requests(self._data):
            if it.name in DRAWN:
                found.setdefault(it.line, set()).add(it.name)
        return found
