"""What each sample sees: its fragments, the nearest first, each laid behind those before it."""
from __future__ import annotations

from collections.abc import Iterator, Sequence

from reyes.why.account import ONE, PIXEL, Account, Fragment, Sample, Triple
from reyes.why.coverage import Areas, areas
from reyes.why.markup import decimal, percent, raw, shown, swatch, tag, text, triple
from reyes.why.things import Things

CORNERS = "ABCD"


def stacks(account: Account, things: Things) -> Iterator[str]:
    """What is told of each sample, in turn."""
    moves = any(fragment.cell.piece.primitive.moves for sample in account.samples for fragment in sample.fragments)
    for number, sample in enumerate(account.samples):
        head = tag("h3", swatch(shown(sample.colour, account.options)), f"Sample {number}")
        time = f"It looks at the time {raw(sample.time)} of 65536 while the shutter is open. " if moves else ""
        weight = f"Its weight is {raw(sample.weight)}, {percent(sample.weight, account.divisor)} of all."
        stack = tag("ol", *_fragments(sample, account, things), class_="stack") if sample.fragments else tag("p", "It sees nothing: its colour is black.")
        yield tag("section", head, tag("p", _place(sample, account), time, weight), stack, id=f"sample-{number}", class_="only told", data_samples=number)


def _place(sample: Sample, account: Account) -> str:
    """Where a sample lies."""
    x, y = (it // PIXEL for it in sample.place)
    within = "this pixel" if (x, y) == account.pixel else f"the pixel ({x}, {y}) beside it"
    across, down = (place - PIXEL * pixel - PIXEL // 2 for place, pixel in zip(sample.place, account.pixel))
    ways = f"{abs(across)} {'left' if across < 0 else 'right'} of the middle and {abs(down)} {'above' if down < 0 else 'below'} it"
    return f"It lies in {within}, at {sample.place} in 256ths of a pixel: {ways}. "


def _fragments(sample: Sample, account: Account, things: Things) -> Iterator[str]:
    before, passed = (0, 0, 0), (ONE, ONE, ONE)
    for fragment in sample.fragments:
        alone = len(sample.fragments) == 1
        yield tag("li", _head(fragment, account, things), _laid(fragment, before, passed), *_blended(fragment, sample, alone))
        before, passed = fragment.after, fragment.passed


def _head(fragment: Fragment, account: Account, things: Things) -> str:
    """What the fragment is of, and how it looks."""
    primitive = fragment.cell.piece.primitive
    names = ", ".join(f"{it.kind} {tag('b', text(it.name))}" for it in primitive.shaders)
    return tag(
        "p",
        tag("b", things.mark(primitive)),
        f" · {names} · depth {decimal(fragment.depth)} {raw(fragment.depth)}",
        tag("br"),
        swatch(shown(fragment.colour, account.options)),
        f"colour {triple(fragment.colour)} · opacity {triple(fragment.opacity)} · with what is before it ",
        swatch(shown(fragment.after, account.options)),
    )


def _laid(fragment: Fragment, before: Triple, passed: Triple) -> str:
    """The composite as formulas, channel by channel."""
    laid = [f"{raw(b)} + ⌊{raw(p)} × {raw(c)} / 65536⌋ = {raw(a)}" for b, p, c, a in zip(before, passed, fragment.colour, fragment.after)]
    left = [f"⌊{raw(p)} × (65536 − {raw(o)}) / 65536⌋ = {raw(n)}" for p, o, n in zip(passed, fragment.opacity, fragment.passed)]
    return by_channels([("colour so far", laid), ("still passes through", left)])


def by_channels(rows: Sequence[tuple[str, Sequence[str]]]) -> str:
    """A table with a column for each channel."""
    head = tag("tr", tag("th"), *(tag("th", it, class_=it, scope="col") for it in ("red", "green", "blue")))
    body = (tag("tr", tag("th", name, scope="row"), *(tag("td", it) for it in cells)) for name, cells in rows)
    return tag("table", head, *body, class_="channels")


def _blended(fragment: Fragment, sample: Sample, is_open: bool) -> Iterator[str]:
    """How depth and colour come of the corners of the micropolygon."""
    found = areas(fragment.corners, sample.place)
    if found is None:
        return
    places = ", ".join(f"{name} at {text(it.place)}" for name, it in zip(CORNERS, fragment.corners))
    seen = f"The camera sees its corners {places}."
    depth = ("depth", _mean(found, [it.depth for it in fragment.corners], fragment.depth))
    if not fragment.cell.piece.primitive.smooth:
        said = f"{seen} It has one colour, that of its corner A; its depth lies between three corners, by the areas of the parts of their triangle:"
        yield _folded("one colour, of the corner A", said, [depth], is_open)
        return
    said = f"{seen} What the sample sees lies between three of them, by the areas of the parts of their triangle:"
    channels = zip(("red", "green", "blue"), zip(*(it.colour for it in fragment.corners)), fragment.colour)
    rows = [(name, _mean(found, numbers, result)) for name, numbers, result in channels]
    names = ", ".join(CORNERS[it] for it in found.corners)
    yield _folded(f"blended from the corners {names}", said, [*rows, depth], is_open)


def _mean(found: Areas, numbers: Sequence[int], result: int) -> str:
    """The mean of a number of the corners as a formula."""
    terms = " + ".join(f"{part} × {raw(numbers[at])}" for part, at in zip(found.parts, found.corners))
    return f"⌊({terms}) / {found.whole}⌋ = {raw(result)}"


def _folded(summary: str, said: str, rows: Sequence[tuple[str, str]], is_open: bool) -> str:
    body = (tag("tr", tag("th", name, scope="row"), tag("td", formula)) for name, formula in rows)
    return tag("details", tag("summary", summary), tag("p", said), tag("table", *body, class_="formulas"), open="" if is_open else None)
