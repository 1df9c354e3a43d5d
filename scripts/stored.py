"""The stored cases of the program `conformance` and their answers, and what the program answers to them now."""
from __future__ import annotations

import os
import re
import subprocess
from collections.abc import Callable, Iterable, Mapping
from concurrent.futures import ThreadPoolExecutor
from pathlib import Path

import clone
from clone import Trouble

HOME = clone.CRATES / "conformance"
# How many cases the program is given at a time: so few that processors end together, so many that starting it costs nothing.
PORTION = 25


def program() -> Path:
    """The program that answers: what CONFORMANCE names, else the proved one, as `rt ci` leaves it. Raises Trouble where it isn't there."""
    named = os.environ.get("CONFORMANCE")
    path = Path(named).absolute() if named else clone.program("conformance")
    if not os.access(path, os.X_OK):
        raise Trouble(f"there is no program {path}: `rt ci` builds it, or `scripts/quick conformance`, unproved; CONFORMANCE may name it")
    return path


def write(path: Path, data: bytes) -> None:
    made = path.with_suffix(".new")
    made.write_bytes(data)
    made.replace(path)


def groups(text: bytes, counted: bytes) -> dict[str, bytes]:
    """The cases or answers of a text, by name and in order. A line whose first word is `counted` is followed by as many bytes as its
    last word says, and a line feed. Raises Trouble where two have one name.
    """
    found, at, name, begin = dict[str, bytes](), 0, "", 0
    while at < len(text):
        end = text.index(b"\n", at)
        words = text[at:end].split(b" ")
        if words[0] == b"case":
            name, begin = words[1].decode(), at
        at = end + 1
        if words[0] == counted:
            at += int(words[-1]) + 1
        if words[0] == b"end":
            if name in found:
                raise Trouble(f"two cases are named {name}")
            found[name] = text[begin:at]
    return found


class Store:
    """All cases and their answers, by name, in the order in which they are stored."""

    def __init__(self) -> None:
        self.cases = groups((HOME / "stdin").read_bytes(), b"file")
        self.answers = groups((HOME / "stdout").read_bytes(), b"notes")
        if list(self.cases) != list(self.answers):
            raise Trouble("the cases and the answers have not the same names in the same order")

    def named(self, word: str) -> list[str]:
        """The names that hold a word."""
        return [name for name in self.cases if word in name]

    def the(self, names: Iterable[str]) -> list[str]:
        """These names. Raises Trouble where there is no such case."""
        found = list(names)
        for name in found:
            if name not in self.cases:
                raise Trouble(f"there is no case {name}")
        return found

    def put(self, name: str, case: bytes, answer: bytes) -> None:
        if name in self.cases:
            raise Trouble(f"there is a case {name}")
        self.cases[name], self.answers[name] = case, answer

    def save(self) -> None:
        write(HOME / "stdin", b"".join(self.cases.values()))
        write(HOME / "stdout", b"".join(self.answers.values()))
        print(f"cases: {len(self.cases)} are stored")


def answered_portion(cases: Mapping[str, bytes]) -> dict[str, bytes]:
    """The program's answers to these cases. Raises Trouble where it doesn't answer them all."""
    ran = subprocess.run([program()], input=b"".join(cases.values()), capture_output=True)
    answers = groups(ran.stdout, b"notes") if ran.returncode == 0 else {}
    if list(answers) != list(cases):
        said = ran.stderr.decode(errors="replace").strip()
        first, last = next(iter(cases)), list(cases)[-1]
        raise Trouble(f"the program ended with {ran.returncode} among the cases from {first} to {last}: {said}")
    return answers


def answered(cases: Mapping[str, bytes], told: Callable[[int], object] = lambda count: None) -> dict[str, bytes]:
    """The program's answers to these cases, side by side on all processors. `told` is told how many more are answered."""
    names = list(cases)
    portions = [names[at : at + PORTION] for at in range(0, len(names), PORTION)]
    found = dict[str, bytes]()
    with ThreadPoolExecutor(os.cpu_count()) as lanes:
        for answers in lanes.map(answered_portion, ({name: cases[name] for name in portion} for portion in portions)):
            found.update(answers)
            told(len(answers))
    return found


def field(pattern: bytes, text: bytes) -> str:
    """What stands in the place of the group of a pattern in a case or an answer; nothing where it doesn't fit."""
    it = re.search(pattern, text, re.M)
    return it[1].decode(errors="replace") if it else ""


def status_of(answer: bytes) -> str:
    return field(rb"^status (\d+)$", answer)


def words_of(case: bytes) -> str:
    return field(rb"^words ?(.*)$", case)


def files_of(case: bytes) -> dict[str, bytes]:
    """The files of a case, by name."""
    found, at = dict[str, bytes](), 0
    while at < len(case):
        end = case.index(b"\n", at)
        words = case[at:end].split(b" ")
        at = end + 1
        if words[0] == b"file":
            length = int(words[-1])
            found[b" ".join(words[1:-1]).decode(errors="replace")] = case[at : at + length]
            at += length + 1
    return found
