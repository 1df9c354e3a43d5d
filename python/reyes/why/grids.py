"""The grids whose micropolygons a pixel's samples see: where those lie in them, their corners, and the shaders' lines beside."""
from __future__ import annotations

from collections.abc import Iterator

from reyes.why.account import ONE, Account, Cell, Piece
from reyes.why.markup import decimal, shown, swatch, tag, text, triple
from reyes.why.stacks import CORNERS
from reyes.why.things import Things

SIDE = 14  # of a micropolygon in the drawing of a grid


def grids(account: Account, things: Things) -> Iterator[str]:
    """What is told of each grid that some sample sees, the nearest first."""
    seen: dict[Piece, dict[Cell, list[int]]] = {}
    depths: dict[Piece, int] = {}
    for number, sample in enumerate(account.samples):
        for fragment in sample.fragments:
            piece = fragment.cell.piece
            seen.setdefault(piece, {}).setdefault(fragment.cell, []).append(number)
            depths[piece] = min(fragment.depth, depths.get(piece, fragment.depth))
    for piece, cells in sorted(seen.items(), key=lambda it: depths[it[0]]):
        numbers = sorted({number for its in cells.values() for number in its})
        beside = tag("div", _grid(piece, cells, things), *_corners(cells, account), class_="grid") + tag("div", *_shaders(piece, things), class_="code")
        yield tag("section", _head(piece, things), tag("div", beside, class_="beside"), class_="only", data_samples=" ".join(map(str, numbers)))


def _head(piece: Piece, things: Things) -> str:
    primitive = piece.primitive
    column, columns, row, rows = primitive.place
    mesh = f" That patch stands in column {column} and row {row} of the {columns} by {rows} that the request makes." if (columns, rows) != (1, 1) else ""
    part = " and ".join(f"{name} from {_fraction(it[0])} to {_fraction(it[1])}" for name, it in (("u", piece.u), ("v", piece.v)))
    title = tag("h3", things.mark(primitive))
    said = f"The grid has {piece.columns} by {piece.rows} micropolygons, over the part of the patch with {part}.{mesh}"
    return title + tag("pre", text(things.line(primitive.line)), class_="request") + tag("p", said)


def _fraction(it: int) -> str:
    """A parameter as a fraction, such as 3/8."""
    over = ONE
    while it % 2 == 0 and over > 1:
        it, over = it // 2, over // 2
    return str(it) if over == 1 else f"{it}/{over}"


def _grid(piece: Piece, cells: dict[Cell, list[int]], things: Things) -> str:
    """The grid as squares, with the micropolygons that samples see."""
    width, height = piece.columns * SIDE, piece.rows * SIDE
    lines = [f"M{at * SIDE} 0V{height}" for at in range(piece.columns + 1)] + [f"M0 {at * SIDE}H{width}" for at in range(piece.rows + 1)]
    marks = (
        tag(
            "rect", tag("title", f"column {it.column}, row {it.row}"), x=it.column * SIDE, y=it.row * SIDE, width=SIDE, height=SIDE, class_="mark",
            data_samples=" ".join(map(str, numbers)),
        )
        for it, numbers in cells.items()
    )
    style = f"--hue:{things.hue(piece.primitive.line)};max-width:{width + 2}px"
    drawing = tag("svg", *marks, tag("path", d="".join(lines)), viewBox=f"-1 -1 {width + 2} {height + 2}", class_="squares", style=style)
    return tag("figure", drawing, tag("figcaption", "u to the right, v down"))


def _corners(cells: dict[Cell, list[int]], account: Account) -> Iterator[str]:
    """The corners of each micropolygon, as points of the grid."""
    for cell, numbers in cells.items():
        if not cell.points:
            continue
        head = tag("tr", *(tag("th", it, scope="col") for it in ("", "P", "Ci", "Oi", "u", "v")))
        rows = [
            tag(
                "tr", tag("th", f"{name} {swatch(shown(it.colour, account.options))}", scope="row"),
                *(tag("td", value) for value in (triple(it.point), triple(it.colour), triple(it.opacity), decimal(it.u), decimal(it.v))),
            )
            for name, it in zip(CORNERS, cell.points)
        ]
        title = tag("caption", f"the corners of the micropolygon in column {cell.column}, row {cell.row}, as the shaders left them")
        yield tag("table", title, head, *rows, class_="only corners", data_samples=" ".join(map(str, numbers)))


def _shaders(piece: Piece, things: Things) -> Iterator[str]:
    """The shaders' lines, the surface's to be seen at once."""
    for use in piece.primitive.shaders:
        lines = (things.text(use) or "").split("\n")
        body = tag("ol", *(tag("li", tag("code", text(it) or " ")) for it in lines), class_="lines") if any(lines) else tag("p", "docs/STOCK.md says what it does.")
        asked = tag("pre", text(f"{things.name}:{use.line}: {things.line(use.line)}"), class_="request")
        said = tag("summary", f"{use.kind} {tag('b', text(things.file(use)))}")
        yield tag("details", said, asked, body, open="" if use.kind == "surface" else None)
