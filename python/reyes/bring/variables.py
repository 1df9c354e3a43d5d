"""Lists of tokens and values: what each token declares, and variables of primitives in the types that the profile has."""
from __future__ import annotations

import re
from collections.abc import Mapping, Sequence
from dataclasses import dataclass, replace
from typing import Any, Union

import numpy as np
from numpy.typing import NDArray

from .text import Argument, Floats, Places

CLASSES = ("constant", "uniform", "varying", "vertex", "facevarying", "facevertex")
WIDTHS = {"float": 1, "integer": 1, "int": 1, "double": 1, "bool": 1, "color": 3, "point": 3, "vector": 3, "normal": 3, "string": 1,
          "hpoint": 4, "point4": 4, "matrix": 16}
NATIVE = ("float", "integer", "color", "point", "vector", "normal", "string")
PLAIN = {"int": "float", "double": "float", "bool": "float", "integer": "float", "point4": "hpoint"}
KIND = re.compile(r"(?:(constant|uniform|varying|vertex|facevarying|facevertex)\s+)?(\w+)\s*(?:\[\s*(\d+)\s*\])?$")
TOKEN = re.compile(r"(?:(constant|uniform|varying|vertex|facevarying|facevertex)\s+)?(?:(\w+)\s*(?:\[\s*(\d+)\s*\])?\s+)?(\S+)$")

Values = Union[Floats, "list[str]"]


@dataclass(frozen=True)
class Kind:
    """A class, a type, and how many values of the type make one (1, but for arrays)."""

    of: str
    type: str
    count: int = 1

    @property
    def width(self) -> int:
        """How many numbers one value has; 0 where the type is unknown."""
        return WIDTHS.get(self.type, 0) * self.count

    def is_native(self) -> bool:
        return self.type in NATIVE and self.count == 1 and self.of in CLASSES[:5]


@dataclass(frozen=True)
class Variable:
    """A variable of a primitive: its token as it stands, its name and kind, and its values: numbers of shape (n, width), or strings."""

    token: str
    name: str
    kind: Kind
    values: Values

    def __len__(self) -> int:
        return len(self.values)

    def numbers(self) -> Floats:
        """The values of a variable of numbers, of shape (n, width)."""
        return self.values if isinstance(self.values, np.ndarray) else np.zeros((len(self.values), 0))

    def of(self, of: str, values: Values) -> "Variable":
        """The variable in another class, with other values."""
        return replace(self, kind=replace(self.kind, of=of), values=values, token="")

    def taken(self, places: Places) -> Values:
        """The values at these places."""
        if isinstance(self.values, np.ndarray):
            return self.values[np.asarray(places, dtype=np.int64)]
        return [self.values[int(it)] for it in places]


START: Mapping[str, Kind] = {
    **{it: Kind("uniform", "float") for it in ("Ka Kd Ks Kr roughness intensity coneangle conedeltaangle beamdistribution mindistance "
                                               "maxdistance distance amplitude fov").split()},
    **{it: Kind("uniform", "color") for it in ("lightcolor", "specularcolor", "background")},
    **{it: Kind("uniform", "point") for it in ("from", "to")},
    "texturename": Kind("uniform", "string"), "s": Kind("varying", "float"), "t": Kind("varying", "float"), "st": Kind("varying", "float", 2),
    "Cs": Kind("varying", "color"), "Os": Kind("varying", "color"), "N": Kind("varying", "normal"), "P": Kind("vertex", "point"),
}
# Names that the standard declares and the profile doesn't.
STANDARD: Mapping[str, Kind] = {
    "Pw": Kind("vertex", "hpoint"), "Pz": Kind("vertex", "float"), "Np": Kind("uniform", "normal"),
    "width": Kind("varying", "float"), "constantwidth": Kind("constant", "float"),
}
FIXED = {"P": "point", "N": "normal", "Cs": "color", "Os": "color", "s": "float", "t": "float"}


def kind_of(text: str) -> Kind | None:
    """The kind that a declaration says, the class being uniform where none is given; None where it says none."""
    found = KIND.match(text.strip())
    if found is None or found[2] in CLASSES:
        return None
    return Kind(found[1] or "uniform", found[2], int(found[3] or 1))


def token_of(token: str, declared: Mapping[str, Kind]) -> tuple[str, Kind | None]:
    """The name that a token has, and its kind where it has one."""
    if token in declared:
        return token, declared[token]
    found = TOKEN.match(token.strip())
    if found is None:
        return token, None
    if found[2] is None or found[2] in CLASSES:
        return found[4], declared.get(found[4])
    return found[4], Kind(found[1] or "uniform", found[2], int(found[3] or 1))


def pairs(args: Sequence[Argument]) -> list[tuple[str, Argument]]:
    """Tokens and values, up to the first place at which no token stands."""
    found = []
    for at in range(0, len(args) - 1, 2):
        token = args[at]
        if not isinstance(token, str):
            break
        found.append((token, args[at + 1]))
    return found


def flat(pairs_: Sequence[tuple[str, Argument]]) -> list[Argument]:
    """Tokens and values as arguments."""
    return [it for pair in pairs_ for it in pair]


def floats(value: Argument) -> Floats:
    """The numbers of a value, or none."""
    return value if isinstance(value, np.ndarray) else np.array([value]) if isinstance(value, float) else np.zeros(0)


def strings(value: Argument) -> list[str]:
    """The strings of a value, or none."""
    return value if isinstance(value, list) else [value] if isinstance(value, str) else []


def variable(token: str, value: Argument, declared: Mapping[str, Kind]) -> Variable | None:
    """A variable of a primitive, or None where its type isn't known or its values don't fit it."""
    name, kind = token_of(token, declared)
    if name == "st" and kind is not None and kind.type in ("float", "double") and kind.count == 1:
        kind = replace(kind, count=2)
    if kind is None or not kind.width:
        return None
    if kind.type == "string":
        return Variable(token, name, kind, strings(value))
    numbers = floats(value)
    if len(numbers) % kind.width:
        return None
    return Variable(token, name, kind, numbers.reshape(-1, kind.width))


def points_of(variables: Mapping[str, Variable]) -> Floats | None:
    """The points of a primitive, of shape (n, 3), by `P`, `Pw` or `Pz`; homogeneous ones are divided by their weights. None without."""
    if "P" in variables and variables["P"].kind.width == 3:
        return variables["P"].numbers()
    for name in ("P", "Pw"):
        if name in variables and variables[name].kind.width == 4:
            rows = variables[name].numbers()
            found: Floats = rows[:, :3] / np.where(rows[:, 3:] == 0, 1.0, rows[:, 3:])
            return found
    return None


def put(variables: Sequence[Variable]) -> list[Argument]:
    """Variables as arguments, each under a token that declares it; a pair `st` by the corners of faces is `s` and `t`."""
    args: list[Argument] = []
    for it in variables:
        values: Argument = it.values.ravel() if isinstance(it.values, np.ndarray) else it.values
        kind = PLAIN.get(it.kind.type, it.kind.type)
        if it.name == "P":
            args += ["P", values]
        elif it.name == "st" and it.kind.width == 2 and it.kind.of in ("varying", "vertex"):
            args += ["st", values]
        elif it.name == "st" and it.kind.width == 2:
            rows = it.numbers()
            args += [f"{it.kind.of} float s", rows[:, 0], f"{it.kind.of} float t", rows[:, 1]]
        else:
            args += [f"{it.kind.of} {kind} {it.name}", values]
    return args


def blend(variable_: Variable, weights: Floats, places: NDArray[Any]) -> Values:
    """Values that are sums of others: `places` of shape (n, k) says which, `weights` how much of each. Strings aren't blended: the first."""
    if isinstance(variable_.values, list):
        return [variable_.values[int(it)] for it in places[:, 0]]
    rows: Floats = np.einsum("nk,nkw->nw", weights, variable_.values[places.astype(np.int64)])
    return rows
