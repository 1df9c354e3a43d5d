"""What the passes of one scene share: the state, the declarations, the changes, and what the scene's shaders take."""
from __future__ import annotations

from collections.abc import Callable, Iterable, Iterator, Mapping, Sequence
from itertools import islice
from typing import Optional

from . import variables
from .changes import Changes
from .reading import Folders
from .shelf import Shelf
from .state import State
from .telling import Silent
from .text import Argument, Request
from .textures import Textures
from .variables import Kind, Variable


class Work:
    """One scene on its way through the passes.

    `depth` is how much room subdivision surfaces have, 3 the most and 0 none; `rows` are all requests and `at` the place of the next one;
    `handles` are the numbers of lights that had names, and `numbers` those that are taken; `solids` says of each open solid whether it was
    turned into a block; `background` is the colour of an imager; `moving` is set in motion blocks; `seen` are the shaders whose textures
    have been looked for; `refined` says whether a surface was that could be refined less; `telling` hears how far the work is.
    """

    def __init__(self, changes: Changes, folders: Folders, depth: int = 3, telling: Silent = Silent()) -> None:
        self.changes, self.folders, self.depth, self.telling = changes, folders, depth, telling
        self.state = State()
        self.shelf, self.textures = Shelf(folders, changes), Textures(folders)
        self.declared: dict[str, Kind] = {**variables.STANDARD, **variables.START}
        self.rows: Sequence[Request] = ()
        self.at = 0
        self.handles: dict[str, float] = {}
        self.numbers: set[float] = set()
        self.solids: list[bool] = []
        self.background: tuple[float, ...] | None = None
        self.moving = False
        self.seen: set[str] = set()
        self.refined = False

    def following(self, most: int) -> Iterator[Request]:
        """The requests after the one that is being brought, so many at most."""
        return islice(self.rows, self.at, self.at + most)

    def takes(self, kind: str, names: Iterable[str]) -> None:
        """Keeps the names that the shader in force of a kind takes from primitives."""
        self.state.set(taken={**self.state.attributes.taken, kind: frozenset(names)})

    def taken(self) -> set[str]:
        """The names that the shaders in force take from primitives."""
        return {name for it in self.state.attributes.taken.values() for name in it}

    def tell(self, kind: str, request: Request, words: str) -> bool:
        """Notes a change at a request, and answers whether it is to be made."""
        return self.changes.tell(kind, request.file, request.line, words)

    def variables(self, request: Request, start: int = 0) -> dict[str, Variable]:
        """The variables of a primitive whose list begins at an argument. What has no known type isn't among them."""
        found: dict[str, Variable] = {}
        for token, value in variables.pairs(request.args[start:]):
            it = variables.variable(token, value, self.declared)
            if it is not None:
                found.pop(it.name, None)
                found[it.name] = it
        return found

    def value(self, request: Request, start: int, name: str) -> Optional[Argument]:
        """The value of the token with a name in a list, the last one where there are more."""
        found = None
        for token, value in variables.pairs(request.args[start:]):
            if variables.token_of(token, self.declared)[0] == name:
                found = value
        return found


Pass = Callable[[Work, Request], Optional[Sequence[Request]]]
Passes = Mapping[str, Sequence[Pass]]
