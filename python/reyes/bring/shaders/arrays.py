"""Arrays, taken apart into a variable for each element."""
from __future__ import annotations

from reyes.bring.shaders import values
from reyes.bring.shaders.tree import Call, Do, Expression, If, Infix, Item, Items, Name, Number, Place, Refused, Set, String
from reyes.bring.shaders.types import constant
from reyes.bring.shaders.work import SAME, Held, Work

LONGEST = 1000


def length_of(work: Work, length: Expression, first: Expression | None) -> int:
    """How many elements an array has, by its length or by its first values. Raises Refused where that isn't told."""
    count = constant(length)
    if not count and isinstance(first, Items):
        count = len(first.values)
    if count is None or not 1 <= count <= LONGEST:
        raise Refused(length.at, f"an array whose length isn't a number from 1 to {LONGEST}")
    return int(count)


def element_names(work: Work, name: str, count: int) -> tuple[str, ...]:
    """Names for the elements of an array, NAME_0 and so on where these are free."""
    found = []
    for place in range(count):
        own = f"{name}_{place}"
        if own in work.taken:
            own = work.fresh(name)
        work.taken.add(own)
        found.append(own)
    return tuple(found)


def declare(work: Work, name: str, kind: str, detail: str, length: Expression, first: Expression | None, at: Place) -> None:
    """Declares the elements of an array; one value stands for all, and those without a value are 0."""
    count = length_of(work, length, first)
    work.tell(SAME, at, f"the array `{name}` taken apart into {count} variables")
    names = element_names(work, name, count)
    given = first.values if isinstance(first, Items) else () if first is None else (first,) * count
    for place, own in enumerate(names):
        value = values.converted(work, given[place], kind) if place < len(given) else None
        work.let(own, kind, value, at, detail)
        if kind == "string" and name not in work.assigned and (fixed := work.fixed(value)) is not None:
            work.declare(own, Held(kind, (), fixed))
    work.declare(name, Held(kind, names))


def array(work: Work, it: Expression) -> Held | None:
    """The array that a variable is, or None."""
    held = work.known(it.name) if isinstance(it, Name) else None
    return held if held is not None and held.elements else None


def element(work: Work, it: Item) -> Expression:
    """One element; where its index isn't a number, a variable that is set by the index, the ends standing for what lies beyond them."""
    held = array(work, it.value)
    if held is None:
        if isinstance(it.value, (String, Call)) or (isinstance(it.value, Name) and work.known(it.value.name)):
            raise Refused(it.at, "an index after something that is no array")
        raise Refused(it.at, "an array that isn't known")
    index = values.value(work, it.index, "float")
    place = constant(index)
    if place is not None:
        return Name(held.elements[max(0, min(len(held.elements) - 1, int(place)))], at=it.at)
    at = it.at
    number = work.temporary("place", "float", Call("floor", (index,), at=at), at)
    found = work.temporary("element", held.type, Name(held.elements[0], at=at), at)
    for count, own in enumerate(held.elements[1:], 1):
        test = Infix(">=", number, Number(str(count)), at=at)
        work.put(If(test, Do(Set("=", found, Name(own, at=at), at=at), at=at), None, at=at))
    return found


def set_element(work: Work, it: Set, target: Item) -> None:
    """Assigns to one element; beyond the ends nothing happens."""
    held = array(work, target.value)
    if held is None:
        raise Refused(it.at, "an array that isn't known")
    index = values.value(work, target.index, "float")
    value = values.converted(work, it.value, held.type)
    place = constant(index)
    if place is not None:
        if 0 <= place < len(held.elements):
            work.set(held.elements[int(place)], value, it.at, it.sign)
        return
    number = work.temporary("place", "float", Call("floor", (index,), at=it.at), it.at)
    new = work.temporary("element", held.type, value, it.at)
    for count, own in enumerate(held.elements):
        test = Infix("==", number, Number(str(count)), at=it.at)
        work.put(If(test, Do(Set(it.sign, Name(own, at=it.at), new, at=it.at), at=it.at), None, at=it.at))


def set_all(work: Work, it: Set, held: Held) -> None:
    """Assigns a whole array, or one value to all of its elements."""
    other = array(work, it.value)
    if other is not None:
        for mine, its in zip(held.elements, other.elements):
            work.set(mine, Name(its, at=it.at), it.at, it.sign)
        return
    given = it.value.values if isinstance(it.value, Items) else (it.value,) * len(held.elements)
    for mine, one in zip(held.elements, given):
        work.set(mine, values.converted(work, one, held.type), it.at, it.sign)
