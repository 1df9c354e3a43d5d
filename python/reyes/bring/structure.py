"""What stands for other text: archives, objects and their instances, procedurals that name an archive, and conditions.

All of it is put in place before any other pass. Nesting and size are bounded: what passes a bound, or reads itself, can't be brought.
"""
from __future__ import annotations

from collections.abc import Iterator, Sequence
from dataclasses import dataclass, field

from .changes import LEFT, NEVER, SAME, Changes
from .reading import Folders, Unreadable, load
from .text import Request, after

NESTING = 32
MOST_REQUESTS = 2_000_000
MOST_BYTES = 1 << 27
PAIRS = {"ArchiveBegin": "ArchiveEnd", "ObjectBegin": "ObjectEnd"}


PROCEDURALS = ("Procedural", "Procedural2")


class TooMuch(Exception):
    """The text in place passes a bound."""


def handle(request: Request) -> str:
    """An object's or an archive's name, also where it is a number."""
    word = request.word(0)
    numbers = request.numbers()
    return word if word is not None else f"number {numbers[0]:g}" if numbers else ""


@dataclass
class Expander:
    """Puts text in place. `open` are the files, archives and objects that are being put in place."""

    changes: Changes
    folders: Folders
    archives: dict[str, list[Request]] = field(default_factory=dict)
    objects: dict[str, list[Request]] = field(default_factory=dict)
    open: list[str] = field(default_factory=list)
    count: int = 0
    bytes: int = 0

    def tell(self, kind: str, request: Request, words: str) -> bool:
        return self.changes.tell(kind, request.file, request.line, words)

    def whole(self, row: Sequence[Request]) -> Iterator[Request]:
        """The requests of a text with all that they stand for."""
        at, branches = 0, [True]
        while at < len(row):
            request = row[at]
            at += 1
            if request.name in ("IfBegin", "ElseIf", "Else", "IfEnd"):
                if self.condition(request, branches):
                    continue
            elif not branches[-1]:
                continue
            if request.name in PAIRS:
                end = closing(row, at, request.name)
                self.keep(request, list(row[at:end]))
                at = end + 1
            else:
                yield from self.one(request)

    def one(self, request: Request) -> Iterator[Request]:
        self.count += 1
        self.bytes += len(request.text or b"")
        if self.count > MOST_REQUESTS or self.bytes > MOST_BYTES:
            raise TooMuch(f"with all archives and objects in place it has more than {MOST_REQUESTS} requests or {MOST_BYTES} bytes")
        words = request.strings(1) if request.name == "Procedural" else named_file(request)
        if request.name == "ReadArchive":
            yield from self.archive(request, request.word(0) or "", block=False)
        elif request.name in PROCEDURALS and (request.word(0) or "").startswith("DelayedReadArchive") and words:
            yield from self.archive(request, words[0], block=True)
        elif request.name == "ObjectInstance":
            yield from self.instance(request)
        elif request.name in PROCEDURALS:
            if not self.tell(LEFT, request, f"`{request.name}` {request.word(0) or ''} left out: it is another program's"):
                yield request
        else:
            if request.name == "Option" and request.word(0) == "searchpath":
                for k in range(1, len(request.args) - 1, 2):
                    self.folders.option((request.word(k) or "").split()[-1:][0] if request.word(k) else "", request.strings(k + 1))
            yield request

    def condition(self, request: Request, branches: list[bool]) -> bool:
        """Takes the first branch of a condition, and answers whether the request goes."""
        if not self.tell(LEFT, request, "of conditions (`IfBegin`) the first branch taken"):
            return False
        if request.name == "IfBegin":
            branches.append(branches[-1])
        elif len(branches) > 1 and request.name == "IfEnd":
            branches.pop()
        elif len(branches) > 1:
            branches[-1] = False
        return True

    def keep(self, request: Request, body: list[Request]) -> None:
        """Keeps an inline archive or an object for the places where it is wanted."""
        if request.name == "ArchiveBegin":
            self.archives[handle(request)] = body
        else:
            self.objects[handle(request)] = body

    def inside(self, request: Request, name: str, body: Sequence[Request]) -> Iterator[Request]:
        """What a body stands for, unless that is itself or nested too deeply."""
        if name in self.open or len(self.open) >= NESTING:
            self.tell(NEVER, request, f"{name} reads itself" if name in self.open else f"more than {NESTING} archives and objects in each other")
            return
        self.open.append(name)
        yield from self.whole(body)
        self.open.pop()

    def archive(self, request: Request, name: str, block: bool) -> Iterator[Request]:
        found = self.archives.get(name)
        key, told = f"archive {name}", list[str]()
        if found is None:
            path = self.folders.find("archive", name)
            if path is None:
                if not self.tell(LEFT, request, f"archive `{name}` isn't here: left out"):
                    yield request
                return
            key = f"archive {path.resolve()}"
            try:
                found, told = load(path, name)
            except Unreadable as it:
                self.tell(NEVER, request, f"archive `{name}`: {it}")
                return
        self.tell(SAME, request, f"`{request.name}` replaced by the archive's text")
        for words in told:
            self.changes.tell(SAME, name, 0, words)
        if block:
            yield Request("AttributeBegin", [], request.file, request.line)
        yield from separated(self.inside(request, key, found))
        yield from after([Request("AttributeEnd", [], request.file, request.line)] if block else [], request)

    def instance(self, request: Request) -> Iterator[Request]:
        name = handle(request)
        if name not in self.objects:
            if not self.tell(LEFT, request, f"`ObjectInstance` of {name}, which isn't there, left out"):
                yield request
            return
        self.tell(SAME, request, "`ObjectInstance` replaced by the object's requests")
        yield Request("AttributeBegin", [], request.file, request.line)
        yield from separated(self.inside(request, f"object {name}", self.objects[name]))
        yield from after([Request("AttributeEnd", [], request.file, request.line)], request)


def named_file(request: Request) -> list[str]:
    """The file that a list names by the token `filename`."""
    found = [request.strings(at + 1) for at, it in enumerate(request.args[:-1]) if isinstance(it, str) and it.split()[-1:] == ["filename"]]
    return found[-1] if found else []


def separated(row: Iterator[Request]) -> Iterator[Request]:
    """Requests of which the last one ends its line."""
    last = None
    for it in row:
        if last is not None:
            yield last
        last = it
    if last is not None:
        if last.text is not None and not last.text.endswith(b"\n"):
            last = Request(last.name, last.args, last.file, last.line, last.text + b"\n", last.tail + b"\n")
        yield last


def closing(row: Sequence[Request], at: int, name: str) -> int:
    """The place of the end that closes a block whose inside begins at a place, or the end of the text."""
    depth = 1
    for place in range(at, len(row)):
        depth += (row[place].name == name) - (row[place].name == PAIRS[name])
        if depth == 0:
            return place
    return len(row)


def expanded(row: Sequence[Request], changes: Changes, folders: Folders) -> list[Request]:
    """A scene's requests with all archives and instances in place. Where that passes a bound, it is told and nothing comes."""
    expander = Expander(changes, folders)
    for request in row:
        if request.name in PAIRS:
            what = "inline archives" if request.name == "ArchiveBegin" else "objects"
            changes.tell(SAME, request.file, request.line, f"{what} put where they are wanted")
    try:
        return list(expander.whole(row))
    except TooMuch as it:
        changes.tell(NEVER, row[0].file, 0, str(it))
        return []
