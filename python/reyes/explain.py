"""`explain`: what a fault's code means, and what a request or a function takes, from the tables of the documents."""
from __future__ import annotations

import argparse
import difflib
import re
from collections.abc import Iterator
from dataclasses import dataclass
from functools import cache
from pathlib import Path

from reyes import program
from reyes.errors import Trouble

# Installed, the pages stand in the package; in a clone in docs/.
INSTALLED = Path(__file__).resolve().parent / "pages"
PAGES = INSTALLED if INSTALLED.is_dir() else program.CLONE / "docs"
CODE = re.compile(r"[LSNGMPTBJX]\d{1,2}")
STATUS = {"N": 3, "G": 5, "M": 5}
REFUSED = "is refused: S2"
KINDS = {"word": "a string", "whole": "a whole number", "number": "a number"}


@dataclass(frozen=True)
class Row:
    """A row of a table about a code, a request or a function: the page, what it is called, and what is said of it; a code's status."""

    page: str
    name: str
    said: str
    status: int = 0


def add_arguments(parser: argparse.ArgumentParser) -> None:
    parser.description = "Says what the code of a fault means, and which values a request of a scene or a function of a shader takes."
    parser.epilog = "example:\n  python3 -m reyes explain S3\n  python3 -m reyes explain 'tea.rib:12: G5' ShadingRate smoothstep"
    parser.add_argument("words", nargs="+", metavar="CODE", help="a code, a whole note of the program, the name of a request or of a function")


def main(arguments: argparse.Namespace) -> int:
    status = 0
    for word in arguments.words:
        found = about(word)
        for row in found:
            head = f"{row.name} (status {row.status}, {row.page})" if row.status else f"{row.name} ({row.page})"
            print(f"{head}: {row.said}")
        if not found:
            status = 1
            print(unknown(word))
    return status


def about(word: str) -> list[Row]:
    """What the tables say of a code, of a note that ends with one, of a request or of a function, whatever its letters' size."""
    name = (word.split() or [""])[-1]
    wanted = name.lower()
    exact = [row for row in rows() if row.name == name]
    return exact or [row for row in rows() if row.name.lower() == wanted]


def sentence(code: str, file: str, request: str = "") -> str:
    """What a code means where a file of this name has the fault, in a sentence without its point; of a request that the tables know,
    with what it takes.
    """
    page = "docs/SHADING.md" if file.endswith(".sl") else "docs/RIB.md"
    found = [row for row in rows() if row.name == code]
    said = "; or ".join(dict.fromkeys([row.said for row in found if row.page == page] or [row.said for row in found]))
    takes = next((row.said for row in rows() if row.name == request and row.page == page), "")
    if takes == REFUSED and code == "S2":
        return f"{request} isn't supported; python3 -m reyes bring_in tells what can stand in its place"
    if takes and code in ("S2", "S3", "S5"):
        said = f"{said.partition(';')[0]}: {request} {spelled(takes.removesuffix('; else S3'))}"
    return re.sub(r" \((at|reported at) [^()]*\)$", "", said).replace("`", "") or "a fault"


def spelled(takes: str) -> str:
    """What a request takes, with the kinds of its arguments in words."""
    found = re.fullmatch(r"takes ((?:(?:word|whole|number)\b ?)*)(?:(,? ?)(list of variables|list|pairs)\b)?(.*)", takes, re.S)
    if found is None or not (found[1] or found[3]):
        return takes
    kinds = [KINDS[it] for it in found[1].split()]
    kinds += ["tokens in quotes, each with its value"] if found[3] else []
    ahead = ", ".join(kinds[:-1])
    return f"takes {f'{ahead} and {kinds[-1]}' if ahead else kinds[-1]}{found[4]}"


def unknown(word: str) -> str:
    """The line about a word that stands for nothing, with the nearest one that does."""
    near = difflib.get_close_matches(word, {row.name for row in rows()}, 1) if word else []
    return f"{word!r}: no code, request or function is called so" + (f"; {near[0]} is" if near else "")


@cache
def rows() -> tuple[Row, ...]:
    """All rows of the pages. Raises Trouble where a page isn't there."""
    found: list[Row] = []
    for page in ("RIB", "SHADING", "FARM"):
        try:
            text = (PAGES / f"{page}.md").read_text("utf-8")
        except OSError as fault:
            raise Trouble(f"{PAGES / page}.md: {fault.strerror}", 6) from fault
        found += _codes(f"docs/{page}.md", text)
        found += _requests(f"docs/{page}.md", text) if page == "RIB" else _functions(f"docs/{page}.md", text)
    return tuple(found)


def names_of_requests() -> set[str]:
    """The names of all requests that the profile knows."""
    return {row.name for row in rows() if row.page == "docs/RIB.md" and not CODE.fullmatch(row.name)}


def names_of_functions() -> set[str]:
    """The names of the built-in functions and statements of shaders."""
    return {row.name for row in rows() if row.page == "docs/SHADING.md" and not CODE.fullmatch(row.name)}


def stock() -> tuple[str, ...]:
    """The names of the stock shaders."""
    return tuple(_stock())


def parameters(name: str) -> tuple[str, ...]:
    """The names of a stock shader's parameters."""
    return _stock().get(name, ())


@cache
def _stock() -> dict[str, tuple[str, ...]]:
    """Each stock shader with its parameters; one that says 'those of' another has these too."""
    found: dict[str, tuple[str, ...]] = {}
    for cells in _cells((PAGES / "STOCK.md").read_text("utf-8")):
        if re.fullmatch(r"`\w+`", cells[0]) and len(cells) > 2:
            others = re.findall(r"those of `(\w+)`", cells[2])
            own = [name for name in re.findall(r"`(\w+)`", cells[2]) if name not in others]
            found[cells[0].strip("`")] = (*(name for other in others for name in found.get(other, ())), *own)
    return found


def _cells(text: str) -> Iterator[list[str]]:
    for line in text.splitlines():
        if line.startswith("|"):
            yield [cell.strip() for cell in line.strip().strip("|").split(" | ")]


def _codes(page: str, text: str) -> Iterator[Row]:
    """The rows of a table of faults: code, status or none, where it comes; or a fault by name, status, where."""
    for cells in _cells(text):
        if CODE.fullmatch(cells[0]) and len(cells) > 1:
            status = next((int(cell) for cell in cells[1:] if re.fullmatch(r"\d", cell)), STATUS.get(cells[0][0], 0))
            yield Row(page, cells[0], " ".join(cell for cell in cells[1:] if not re.fullmatch(r"\d", cell)), status)


def _requests(page: str, text: str) -> Iterator[Row]:
    """The requests that are read, with their arguments and faults; those that are passed over or refused."""
    _, _, rest = text.partition("## Requests that are read")
    read, _, rest = rest.partition("## Requests that are passed over")
    passed, _, rest = rest.partition("## Requests that are refused")
    for cells in _cells(read):
        if len(cells) < 2:
            continue
        names = re.findall(r"`([A-Z]\w+)`", cells[0])
        said = f"takes {cells[1]}" + (f"; else {cells[2]}" if len(cells) > 2 and cells[2] else "")
        yield from (Row(page, name, said) for name in names)
    listed = re.findall(r"`([A-Za-z]\w+)`", passed.strip().partition(" take any")[0])
    yield from (Row(page, name, "is passed over: it takes any values and is without effect") for name in listed)
    refused = re.split(r";\s+each\s+name", rest)[0]
    yield from (Row(page, name, REFUSED) for name in re.findall(r"`([A-Z]\w+)`", refused))


def _functions(page: str, text: str) -> Iterator[Row]:
    """The built-in functions and statements of shaders, with their arguments, values and places."""
    _, _, rest = text.partition("## Built-in functions")
    table, _, computed = rest.partition("## What operators and built-in functions compute")
    formulas: dict[str, str] = {}
    for cells in _cells(computed.partition("## ")[0]):
        if len(cells) == 2:
            formulas.update({name: cells[1] for name in re.findall(r"`(\w+)\(", cells[0]) + re.findall(r"`(\w{3,})`", cells[0])})
    labels: tuple[str, ...] = ()
    for cells in _cells(table):
        if cells[0] in ("Functions", "Statements"):
            labels = ("takes", "gives", "stands") if cells[0] == "Functions" else ("takes", "stands")
        elif labels and re.fullmatch(r"[\w ]+", cells[0].replace("`", "")):
            said = "; ".join(f"{label} {cell}" for label, cell in zip(labels, cells[1:]) if cell)
            for name in cells[0].replace("`", "").split():
                yield Row(page, name, said + (f". It is {formulas[name]}" if name in formulas else ""))
