"""What bringing a scene in changes: each change has one kind, a place and words, and all of them are told at once."""
from __future__ import annotations

from collections.abc import Iterator
from dataclasses import dataclass

SAME, NEAR, LEFT, NEVER = "=", "~", "!", "X"
KINDS = (SAME, NEAR, LEFT, NEVER)
MEANINGS = {
    SAME: "nothing is lost",
    NEAR: "an approximation",
    LEFT: "something is left out",
    NEVER: "can't be brought",
}
WORD_FOR = {NEAR: "--near", LEFT: "--without"}


@dataclass(frozen=True)
class Change:
    """One change: its kind is one of `=`, `~`, `!` and `X`; the line is counted from 1, and 0 stands for a whole file."""

    kind: str
    file: str
    line: int
    words: str


@dataclass
class Place:
    """How often a change of one kind and wording was made in one file: at which line first, and at which last."""

    first: int
    last: int
    count: int = 1


class Changes:
    """All changes of one scene in the order of their first places, and which kinds the user lets be made.

    `may` holds the kinds that are made; the others are told and held back. What is told at many lines of a file in the same words
    takes the room of one entry, so that the list doesn't grow with the scene.
    """

    def __init__(self, may: str = SAME) -> None:
        self.may = may
        self.places: dict[tuple[str, str, str], Place] = {}

    def tell(self, kind: str, file: str, line: int, words: str) -> bool:
        """Notes a change, and answers whether it is to be made: `X` never is."""
        if kind not in KINDS:
            raise ValueError(f"no kind of change: {kind}")
        place = self.places.get((kind, file, words))
        if place is None:
            self.places[(kind, file, words)] = Place(line, line)
        else:
            place.first, place.last, place.count = min(place.first, line), max(place.last, line), place.count + 1
        return kind in self.may and kind != NEVER

    def take(self, other: "Changes") -> None:
        """Notes what another list has."""
        for key, place in other.places.items():
            mine = self.places.setdefault(key, place)
            if mine is not place:
                mine.first, mine.last, mine.count = min(mine.first, place.first), max(mine.last, place.last), mine.count + place.count

    def __iter__(self) -> Iterator[Change]:
        """The first place of each change."""
        for (kind, file, words), place in self.places.items():
            yield Change(kind, file, place.first, words)

    def __len__(self) -> int:
        return len(self.places)

    def held(self) -> list[Change]:
        """The changes that are needed and that the user didn't allow, those that can't be made aside."""
        return [it for it in self if it.kind not in self.may and it.kind != NEVER]

    def status(self) -> int:
        """0 where nothing is lost, 1 with an approximation, 2 where something is left out, 3 with something that can't be brought."""
        return max((KINDS.index(it.kind) for it in self), default=0)

    def lines(self) -> list[str]:
        """One line for each change and wording: `KIND FILE:LINE: WORDS`, with how often, and with the option that a change waits for."""
        found = []
        for (kind, file, words), place in self.places.items():
            often = f" ({place.count} times, to line {place.last})" if place.count > 1 else ""
            wait = f" [needs {WORD_FOR[kind]}]" if kind in WORD_FOR and kind not in self.may else ""
            at = f"{file}:{place.first}" if place.first else file
            found.append(f"{kind} {at}: {words}{often}{wait}")
        return found

    def text(self) -> str:
        """The file CHANGES: what the signs mean, and then every change."""
        head = [f"# {kind} {MEANINGS[kind]}" for kind in KINDS]
        return "\n".join([*head, *(self.lines() or ["# no change"])]) + "\n"
