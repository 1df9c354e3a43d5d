"""From the samples to the bytes: each step as a formula with its numbers."""
from __future__ import annotations

from collections.abc import Iterator, Sequence

from reyes.why.account import ONE, Account
from reyes.why.markup import decimal, percent, raw, shown, swatch, tag, text
from reyes.why.stacks import by_channels


def terms(account: Account) -> str:
    """Each sample's weight and colour, and the sums of their products."""
    head = tag("tr", *(tag("th", it, scope="col") for it in ("sample", "weight", "share", "", "red", "green", "blue")))
    rows = []
    for number, it in enumerate(account.samples):
        cells = [
            tag("a", text(number), href=f"#sample-{number}", data_sample=number), raw(it.weight), percent(it.weight, account.divisor),
            swatch(shown(it.colour, account.options)), *map(raw, it.colour),
        ]
        rows.append(tag("tr", *(tag("td", cell) for cell in cells), data_samples=number))
    return tag("div", tag("table", head, *rows, class_="terms"), class_="scroll", tabindex="0", role="region", aria_label="the samples with their weights")


def chain(account: Account) -> str:
    """The steps from the sums to the bytes."""
    return by_channels(list(_steps(account)))


def _steps(account: Account) -> Iterator[tuple[str, Sequence[str]]]:
    options = account.options
    yield "sum of weight × colour, over all samples", [tag("code", text(it)) for it in account.sum]
    if account.divisor == 0:
        yield "no sample counts, so the mean is 0", [raw(mean) for mean in account.mean]
    else:
        yield f"divided by the sum of the weights, {account.divisor}, and rounded down: the mean", [
            f"⌊{total} / {account.divisor}⌋ = {raw(mean)}{_value(mean)}" for total, mean in zip(account.sum, account.mean)
        ]
    if options.gain != ONE:
        yield f"times the gain, {decimal(options.gain)}", [
            f"⌊{raw(mean)} × {raw(options.gain)} / 65536⌋ = {raw(bright)}{_value(bright)}" for mean, bright in zip(account.mean, account.bright)
        ]
    if options.gamma != ONE:
        yield f"to the power 1 / gamma, of the gamma {decimal(options.gamma)}", [
            f"{decimal(bright)}<sup>1 / {decimal(options.gamma)}</sup> = {raw(exposed)}{_value(exposed)}"
            for bright, exposed in zip(account.bright, account.exposed)
        ]
    yield f"in levels of which {options.one} is a full channel, rounded to the nearest", [
        f"⌊(2 × {options.one} × {raw(exposed)} + 65536) / 131072⌋ = {tag('b', text(level))}" for exposed, level in zip(account.exposed, account.rounded)
    ]
    if account.rounded != account.levels:
        yield f"put into {options.least} to {options.most}", [f"{a} → {tag('b', text(b))}" for a, b in zip(account.rounded, account.levels)]
    if options.one > 255:
        yield "as two bytes, the high one first", [
            f"{level} = 256 × {level // 256} + {level % 256}: {tag('b', f'{level // 256}, {level % 256}')}" for level in account.levels
        ]


def _value(it: int) -> str:
    return tag("small", f" {decimal(it)}")
