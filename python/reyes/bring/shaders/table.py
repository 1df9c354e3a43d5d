"""The table of calls that the profile hasn't, and of what stands for them."""
from __future__ import annotations

from collections.abc import Callable

from reyes.bring.shaders.tree import Call, Expression, Number, Refused
from reyes.bring.shaders.work import Work

Maker = Callable[[Work, Call, str], Expression]
TABLE: dict[str, Maker] = {}
ZERO, ONE = Number("0"), Number("1")


def lowers(*names: str) -> Callable[[Maker], Maker]:
    """Puts a function into the table under the names of those that it lowers."""

    def add(maker: Maker) -> Maker:
        for name in names:
            TABLE[name] = maker
        return maker

    return add


def given(it: Call, least: int, most: int) -> None:
    """Refuses a call whose arguments are fewer or more."""
    if not least <= len(it.arguments) <= most:
        raise Refused(it.at, f"{len(it.arguments)} arguments of `{it.name}`")
