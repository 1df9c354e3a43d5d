"""The pixel enlarged, as an SVG: its neighbours, the filter's window, the micropolygons that its samples see, and the samples.

Its unit is that of the raster, 1/256 pixel, counted from the upper left corner of the pixel.
"""
from __future__ import annotations

from collections.abc import Callable, Iterator

from reyes.why.account import ONE, PIXEL, Account, Cell, Corner, Sample, Spot
from reyes.why.markup import percent, shown, tag, text
from reyes.why.things import Things

MARGIN = 20
LARGEST = 22  # the radius of a sample, so that what lies below it shows
Colours = Callable[[int, int], "str | None"]  # the colour of a pixel of the picture, where it has that pixel


class Enlarged:
    """The drawing of an account: `colours` has the picture's pixels."""

    def __init__(self, account: Account, things: Things, colours: Colours) -> None:
        self.account, self.things, self.colours = account, things, colours
        self.x, self.y = account.pixel[0] * PIXEL, account.pixel[1] * PIXEL
        across, down = account.options.widths
        # the window of the filter, about the pixel's middle
        self.window = ((PIXEL - across) / 2, (PIXEL - down) / 2, across, down)
        places = [(it.place[0] - self.x, it.place[1] - self.y) for it in account.samples]
        left, top = (min(0, self.window[axis], *(it[axis] for it in places)) - MARGIN for axis in (0, 1))
        right, bottom = (max(PIXEL, self.window[axis] + account.options.widths[axis], *(it[axis] for it in places)) + MARGIN for axis in (0, 1))
        self.box = (left, top, right - left, bottom - top)

    def svg(self) -> str:
        """The drawing."""
        group = tag("g", *self._samples(), role="group", aria_label="the samples")
        box = " ".join(f"{it:g}" for it in self.box)
        parts = ["".join(it) for it in (self._pixels(), self._cells())]
        marker = tag("circle", id="marker", class_="marker", r=0)
        return tag("svg", *parts, self._frames(), group, marker, viewBox=box, id="enlarged", class_="enlarged")

    def _pixels(self) -> Iterator[str]:
        """The pixels of the picture as far as they show."""
        left, top, width, height = self.box
        for row in range(int(top // PIXEL), int((top + height) // PIXEL) + 1):
            for column in range(int(left // PIXEL), int((left + width) // PIXEL) + 1):
                colour = self.colours(self.account.pixel[0] + column, self.account.pixel[1] + row)
                yield tag("rect", x=column * PIXEL, y=row * PIXEL, width=PIXEL, height=PIXEL, class_="neighbour", fill=colour or "none")

    def _frames(self) -> str:
        """The window of the filter and the pixel itself."""
        left, top, across, down = (f"{it:g}" for it in self.window)
        window = tag("rect", tag("title", "the filter's window: samples in it count"), x=left, y=top, width=across, height=down, class_="window")
        return window + "".join(tag("rect", x=0, y=0, width=PIXEL, height=PIXEL, class_=it) for it in ("halo", "pixel"))

    def _cells(self) -> Iterator[str]:
        """The edges of the micropolygons, the farthest first, each with the numbers of the samples that see it so."""
        seen: dict[tuple[Cell, tuple[Corner, ...]], list[int]] = {}
        for number, sample in enumerate(self.account.samples):
            for fragment in sample.fragments:
                if fragment.corners:
                    seen.setdefault((fragment.cell, fragment.corners), []).append(number)
        for (cell, corners), numbers in sorted(seen.items(), key=lambda it: -max(corner.depth for corner in it[0][1])):
            primitive = cell.piece.primitive
            points = " ".join(f"{it.place[0] - self.x},{it.place[1] - self.y}" for it in corners)
            kind = "cell moving" if primitive.moves else "cell"
            title = tag("title", text(f"{self.things.called(primitive.line)}: column {cell.column}, row {cell.row} of its grid"))
            both = tag("polygon", points=points, class_="halo") + tag("polygon", title, points=points, stroke=self.things.hue(primitive.line))
            yield tag("g", both, class_=kind, data_samples=" ".join(map(str, numbers)))

    def _samples(self) -> Iterator[str]:
        """The samples as links to what is told of them, by rows, each as large as its weight."""
        most = max((it.weight for it in self.account.samples), default=ONE)
        across, down = self.account.options.samples
        largest = min(LARGEST, 0.24 * PIXEL / max(across, down))
        for number in in_reading_order(self.account):
            it = self.account.samples[number]
            x, y = it.place[0] - self.x, it.place[1] - self.y
            radius = max(largest * (max(it.weight, 0) / most) ** 0.5, largest / 6)
            said = said_of(it, number, self.account)
            fill = shown(it.colour, self.account.options)
            dot = "".join(tag("circle", cx=x, cy=y, r=f"{radius:.1f}", class_=it, fill=fill) for it in ("ring", "dot"))
            yield tag(
                "a", tag("title", text(said)), dot, href=f"#sample-{number}", class_="sample", data_sample=number, data_row=row_of(it, self.account),
                data_x=x, data_y=y, data_weight=it.weight, aria_label=said,
            )


def row_of(sample: Sample, account: Account) -> int:
    """The row of samples in which one lies, counted over all pixels."""
    return sample.place[1] * account.options.samples[1] // PIXEL


def in_reading_order(account: Account) -> list[int]:
    """The numbers of the samples by rows of them, from the left in each."""
    order: dict[int, tuple[int, Spot]] = {number: (row_of(it, account), it.place) for number, it in enumerate(account.samples)}
    return sorted(order, key=lambda number: order[number])


def said_of(sample: Sample, number: int, account: Account) -> str:
    """A sample in a line."""
    count = len(sample.fragments)
    sees = "nothing" if not count else "one micropolygon" if count == 1 else f"{count} micropolygons"
    return f"sample {number}: {percent(sample.weight, account.divisor)} of the pixel, sees {sees}"
