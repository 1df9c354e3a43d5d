"""The page of a pixel: one file of HTML that fetches nothing."""
from __future__ import annotations

import base64
from collections.abc import Iterator
from importlib import resources

from reyes.why import grids, sums
from reyes.why.account import Account, Sample
from reyes.why.enlarged import Enlarged
from reyes.why.film import Film
from reyes.why.markup import percent, shown, swatch, tag, text
from reyes.why.stacks import stacks
from reyes.why.things import Things

POLICY = "default-src 'none'; img-src data:; style-src 'unsafe-inline'; script-src 'unsafe-inline'; form-action 'self'"
KEYS = "Point at a sample, or take the arrow keys once one has the focus: what it sees is told beside."


def page(account: Account, film: Film, things: Things, asks: bool = False) -> str:
    """The page; where it asks, a click on the picture asks for the page of that pixel."""
    x, y = account.pixel
    levels = " ".join(map(str, account.levels))
    title = f"Why is the pixel ({x}, {y}) of {things.name} {levels}?"
    colour = film.colour(x, y) or "none"
    head = tag(
        "head", tag("meta", charset="utf-8"), tag("title", text(title)), tag("meta", name="viewport", content="width=device-width"),
        tag("meta", http_equiv="Content-Security-Policy", content=POLICY), tag("style", _own("page.css")),
    )
    name = tag("i", text(things.name))
    shown_title = tag("h1", swatch(colour, "swatch large"), f"Why is the pixel ({x}, {y}) of {name} ", tag("b", text(levels)), "?")
    body = tag(
        "body",
        tag("header", shown_title, tag("p", _summary(account))),
        tag(
            "main", _picture(account, film, asks), _pixel(account, film, things), _told(account, things), _sum(account, colour), _grids(account, things),
            class_="asks" if asks else None,
        ),
        tag("script", _own("page.js")),
    )
    return f"<!doctype html>\n{tag('html', head, body, lang='en')}\n"


def _own(name: str) -> str:
    """A file that stands beside this module."""
    return (resources.files("reyes.why") / name).read_text("utf-8")


def _summary(account: Account) -> str:
    options = account.options
    across, down = options.samples
    widths = " by ".join(f"{it / 256:.4g}" for it in options.widths)
    return (
        f"Each pixel has {across} by {down} samples. Those in the window of this pixel's {text(options.filter)} filter, {widths} pixels wide, count for it: "
        f"{len(account.samples)}. Numbers <code>so</code> are raw: whole numbers of 65536ths. ⌊ ⌋ rounds down."
    )


def _picture(account: Account, film: Film, asks: bool) -> str:
    """The picture with the pixel marked."""
    x, y = account.pixel[0] - film.left + 0.5, account.pixel[1] - film.top + 0.5
    around = max(1.0, film.width / 50)
    lines = f"M{x} 0V{y - around}M{x} {y + around}V{film.height}M0 {y}H{x - around}M{x + around} {y}H{film.width}"
    marks = "".join(tag("path", d=lines, class_=it) + tag("circle", cx=x, cy=y, r=around, class_=it) for it in ("halo", "line"))
    source = "data:image/png;base64," + base64.b64encode(film.png()).decode("ascii")
    image = tag("img", src=source, alt=f"the picture, {film.width} by {film.height} pixels", width=film.width, height=film.height)
    mark = tag("svg", marks, viewBox=f"0 0 {film.width} {film.height}", aria_hidden="true")
    whole = tag("div", image, mark, class_="film", id="film", style=f"--width:{film.width}", data_left=film.left, data_top=film.top, data_asks="" if asks else None)
    below = _form(account, film) if asks else ""
    return tag("section", tag("h2", "The picture"), whole, below, id="picture")


def _form(account: Account, film: Film) -> str:
    """What asks for another pixel without a mouse."""
    fields = (
        tag("label", f"{name} ", tag("input", type="number", name=name, value=at, min=least, max=least + size - 1, required=""))
        for name, at, least, size in zip("xy", account.pixel, (film.left, film.top), (film.width, film.height))
    )
    return tag("form", "A click explains another pixel, and so do its numbers: ", *fields, tag("button", "explain"), method="get", action="/")


def _pixel(account: Account, film: Film, things: Things) -> str:
    """The pixel enlarged, and what its samples see, thing by thing."""
    return tag(
        "section", tag("h2", "The pixel, its samples and their micropolygons"), Enlarged(account, things, film.colour).svg(), tag("p", KEYS),
        tag("table", *_seen(account, things), class_="seen"), id="pixel",
    )


def _seen(account: Account, things: Things) -> Iterator[str]:
    """What is seen, from front to back, with how many samples see it and their share of the pixel."""
    groups: dict[tuple[int, ...], list[Sample]] = {}
    for sample in account.samples:
        groups.setdefault(tuple(it.cell.piece.primitive.line for it in sample.fragments), []).append(sample)
    yield tag("tr", *(tag("th", it, scope="col") for it in ("seen, the nearest first", "samples", "share", "colour")))
    for samples in sorted(groups.values(), key=lambda it: -sum(sample.weight for sample in it)):
        fragments = samples[0].fragments
        names = [things.mark(it.cell.piece.primitive) + f" ({text(it.cell.piece.primitive.shaders[0].name)})" for it in fragments] or ["nothing"]
        weight = sum(it.weight for it in samples)
        red, green, blue = (sum(it.weight * it.colour[axis] for it in samples) // (weight or 1) for axis in range(3))
        colour = swatch(shown((red, green, blue), account.options))
        yield tag("tr", *(tag("td", it) for it in (" before ".join(names), str(len(samples)), percent(weight, account.divisor), colour)))


def _told(account: Account, things: Things) -> str:
    return tag("section", tag("h2", "What a sample sees"), *stacks(account, things), id="told", aria_live="polite")


def _sum(account: Account, colour: str) -> str:
    levels = ", ".join(map(str, account.written))
    end = tag("p", swatch(colour), f"The picture's file has the bytes {tag('b', levels)} at this pixel: the renderer drew them, and the account ends with them.")
    added = tag("div", sums.terms(account), tag("div", sums.chain(account), end), class_="added")
    return tag("section", tag("h2", "The sum, to the byte"), added, id="sum")


def _grids(account: Account, things: Things) -> str:
    said = "The grids that hold the sample's micropolygons, and the shaders that ran on all their points at once."
    return tag("section", tag("h2", "The shaders' lines and the grids"), tag("p", said), *grids.grids(account, things), id="grids")
