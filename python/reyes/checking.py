"""Faults of a scene, its shaders and textures: asked of the program, and put at their place in the user's own files."""
from __future__ import annotations

import difflib
import itertools
import os
import re
import tempfile
from collections.abc import Iterable, Mapping, Sequence
from contextlib import ExitStack
from dataclasses import dataclass, replace
from pathlib import Path
from subprocess import DEVNULL, PIPE, Popen
from typing import TypeVar

from reyes import explain, files, lists, rib, shader
from reyes.errors import MISSING, Trouble
from reyes.files import Files

NOTE = re.compile(r"(.*):([0-9]+): ([A-Z][0-9]+)")
SCENE = "/dev/stdin"
WITH_WORD = ("Patch", "PatchMesh", "Surface", "Displacement", "Atmosphere", "LightSource", "Projection", "Attribute")
FROM_THE_START = (
    "Ka Kd Ks Kr roughness intensity coneangle conedeltaangle beamdistribution mindistance maxdistance distance amplitude fov "
    "lightcolor specularcolor background from to texturename s t st Cs Os N P"
).split()
PREDEFINED = "P N Ng I E u v du dv s t Cs Os dPdu dPdv L Cl Ci Oi Ps PI".split()
AnyToken = TypeVar("AnyToken", rib.Token, shader.Token)
PLAIN = {2: "usage", 7: "a file can't be read", 8: "a picture can't be written", 9: "want of memory"}


@dataclass(frozen=True)
class Fault:
    """A fault: the user's own file, line and column (from 1; 0 where none is known), how many bytes it marks, the code, the sentence, the
    program's status, and the nearest known name where a name is unknown ("").
    """

    file: str
    line: int
    column: int
    length: int
    code: str
    sentence: str
    status: int
    near: str = ""

    def __str__(self) -> str:
        place = f"{self.file}:{self.line}:{self.column}" if self.column else f"{self.file}:{self.line}" if self.line else self.file
        return f"{place}: {self.code}: {self.sentence}" + (f"; the nearest known name is {self.near!r}" if self.near else "")


@dataclass(frozen=True)
class Texts:
    """What is checked: the scene's bytes, what the user calls it, the files that it needs, and the program. `replaced` has texts that
    take the place of shaders.
    """

    data: bytes
    name: str
    files: Files
    program: Path
    replaced: Mapping[str, bytes]

    def shader(self, name: str) -> bytes:
        """The text of a shader's file (`matte.sl`), or no bytes where there is none."""
        if name in self.replaced:
            return self.replaced[name]
        return self.files[name].path.read_bytes() if name in self.files else b""


class Asked:
    """The program's `check` of a scene, which runs beside what is done next, until its answer is asked for."""

    def __init__(self, texts: Texts) -> None:
        self._texts = texts
        self._stack = ExitStack()
        folder = self._stack.enter_context(files.folder_of_links(texts.files, texts.replaced))
        with tempfile.TemporaryFile() as scene:  # and not a pipe, which something would have to fill meanwhile
            scene.write(texts.data)
            scene.seek(0)
            try:
                self._process = Popen([os.fspath(texts.program), "check", SCENE], cwd=folder, stdin=scene, stdout=DEVNULL, stderr=PIPE)
            except OSError as fault:
                self._stack.close()
                raise Trouble(f"{texts.program}: {fault.strerror or fault}") from fault
        self._stack.callback(self._end)
        self._answer: tuple[int, str] | None = None

    def is_there(self) -> bool:
        """Whether the answer has come."""
        return self._answer is not None or self._process.poll() is not None

    def answer(self) -> tuple[int, str]:
        """The status and the note, once they have come."""
        if self._answer is not None:
            return self._answer
        with self._stack:
            notes = self._process.communicate()[1].decode("utf-8", "replace").splitlines()
        self._answer = self._process.returncode, notes[-1] if notes else ""
        return self._answer

    def accepted(self) -> None:
        """Waits for the answer. Raises Trouble with the scene's first fault, where it has one."""
        fault = fault_of(self._texts, *self.answer())
        if fault is not None:
            raise Trouble(str(fault), fault.status)

    def close(self) -> None:
        """Ends the program, where nobody waits for its answer any more."""
        self._stack.close()

    def _end(self) -> None:
        with self._process as process:
            process.kill()


def first(texts: Texts) -> Fault | None:
    """The first fault of a scene by the program's order, at its place, or None where it is accepted."""
    return fault_of(texts, *ask(texts))


def ask(texts: Texts) -> tuple[int, str]:
    """The program's answer to `check`: its status and its note."""
    return Asked(texts).answer()


def fault_of(texts: Texts, status: int, note: str) -> Fault | None:
    """The fault that an answer tells, at its place; None where the scene is accepted."""
    if status == 0:
        return None
    found = NOTE.fullmatch(note)
    if found is None:
        return _without_line(texts, status, note)
    file, line, code = found.group(1), int(found.group(2)), found.group(3)
    if file == SCENE:
        return _in_scene(texts, status, line, code)
    if file.endswith(".sl"):
        return _in_shader(texts, status, file, line, code)
    path = shown(texts.files[file].path) if file in texts.files else file
    return Fault(path, line, 0, 0, code, explain.sentence(code, file), status)


def fault_of_a_band(status: int, notes: tuple[str, ...], rows: tuple[int, int]) -> Trouble:
    """What is told where a band isn't drawn although its scene was accepted: a lack of memory, a killed process, a file that is gone."""
    why = PLAIN.get(status) or (f"its process was ended by signal {-status}" if status < 0 else notes[-1] if notes else f"status {status}")
    return Trouble(f"rows {rows[0]} to {rows[1] - 1}: {why}", status if status > 0 else 9)


def _without_line(texts: Texts, status: int, note: str) -> Fault:
    """The fault of a note that names no line: a file that is missing, or what no text is guilty of."""
    if status == MISSING and note.endswith(": missing"):
        file = note.removesuffix(": missing")
        wanted = file.removesuffix(".sl") if file.endswith(".sl") else file
        names = {it.removesuffix(".sl") for it in texts.files if it.endswith(".sl")} | set(explain.stock())
        near = nearest(wanted, names - {wanted}) if file.endswith(".sl") else ""
        for request in rib.requests(texts.data):
            if b'"' in texts.data[request.start : request.end] and request.name in ("Surface", "Displacement", "Atmosphere", "LightSource"):
                for token in request.arguments:
                    if token.kind == "string" and token.value == wanted:
                        kind = "shader" if file.endswith(".sl") else "texture"
                        return _at(texts.name, token, "missing", f"there is no {kind} {wanted!r}", status, near)
        return Fault(texts.name, 0, 0, 0, "missing", f"{file!r}, which a shader names, isn't there", status)
    return Fault(texts.name, 0, 0, 0, "fault", PLAIN.get(status) or note or f"the program ended with status {status}", status)


def _in_scene(texts: Texts, status: int, line: int, code: str) -> Fault:
    """The fault at the token of the scene's text that the program means: it is asked again, with each token of the line on a line of its
    own, and says by that which of them it is.
    """
    row = _line_of(texts.data, line)
    begun = [it for it in rib.tokens(texts.data, row[0], row[1], line, 1)]
    token = None
    if code[0] == "L":
        token = next((it for it in begun if it.kind == "bad" and it.value == code), None)
    elif begun:
        again = ask(replace(texts, data=_spread(texts.data, [it.start for it in begun])))
        token = _chosen(begun, again, line, code)
    if token is None:
        return Fault(texts.name, line, 0, 0, code, explain.sentence(code, "scene.rib"), status)
    said = explain.sentence(code, "scene.rib", token.text)
    if code in ("S5", "B2"):
        token, said = _listed(texts, token, code, said)
    token, near = _nearer(texts, token, code)
    return _at(texts.name, token, code, said, status, near)


def _in_shader(texts: Texts, status: int, file: str, line: int, code: str) -> Fault:
    """The fault at the token of a shader's text, found in the same way."""
    data = texts.shader(file)
    path = shown(texts.files[file].path) if file in texts.files else file
    begun = [it for it in shader.tokens(data) if it.line == line]
    token = None
    if begun:
        again = ask(replace(texts, replaced={**texts.replaced, file: _spread(data, [it.start for it in begun])}))
        token = _chosen(begun, again, line, code)
    said = explain.sentence(code, file)
    if token is None:
        return Fault(path, line, 0, 0, code, said, status)
    near = nearest(token.text, _known_in(data) - {token.text}) if code == "T1" else ""
    return Fault(path, line, token.column, token.end - token.start, code, said, status, near)


def _chosen(begun: Sequence[AnyToken], again: tuple[int, str], line: int, code: str) -> AnyToken | None:
    """The token that an answer means, where each of them stood on a line of its own from `line` on; the first where it says nothing."""
    found = NOTE.fullmatch(again[1])
    place = int(found.group(2)) - line if found is not None and found.group(3) == code else 0
    return begun[place] if 0 <= place < len(begun) else begun[0]


def _spread(data: bytes, places: Sequence[int]) -> bytes:
    """The text with a line feed before each of these places but the first."""
    cuts = [0, *places[1:], len(data)]
    return b"\n".join(data[begin:end] for begin, end in zip(cuts, cuts[1:]))


def _line_of(data: bytes, line: int) -> tuple[int, int]:
    """The offsets of a line, counted from 1, and of its end."""
    begin = 0
    for _ in range(line - 1):
        begin = data.find(b"\n", begin) + 1
        if begin == 0:
            return len(data), len(data)
    end = data.find(b"\n", begin)
    return begin, end if end >= 0 else len(data)


def _nearer(texts: Texts, token: rib.Token, code: str) -> tuple[rib.Token, str]:
    """Of a fault that is told at a request's name, the argument that is meant, where that can be said, and the nearest known name."""
    if code == "S1":
        return token, nearest(token.text, explain.names_of_requests())
    if code not in ("S4", "B1"):
        return token, ""
    request = next((it for it in rib.requests(texts.data) if it.start == token.start), None)
    if request is None:
        return token, ""
    strings = [it for it in request.arguments if it.kind == "string"]
    if code == "S4":
        known = _declared(texts.data, request.start)
        odd = [it for it in strings[request.name in WITH_WORD :] if len(str(it.value).split()) not in (2, 3) and it.value not in known]
        names = known
    else:
        found = shader.declared(texts.shader(f"{strings[0].value}.sl")) if strings else None
        names = {it.name for it in found.parameters} if found else set(explain.parameters(str(strings[0].value)) if strings else ())
        odd = [it for it in _heads(request.arguments) if (str(it.value).split() or [""])[-1] not in names]
    return (odd[0], nearest((str(odd[0].value).split() or [""])[-1], names)) if odd else (token, "")


def _listed(texts: Texts, token: rib.Token, code: str, said: str) -> tuple[rib.Token, str]:
    """Of a fault of a list that is told at a request's name, the token that is meant and what is wrong with it, where that can be said."""
    rows = list(itertools.takewhile(lambda it: it.start <= token.start, rib.requests(texts.data)))
    strings = [it for it in rows[-1].arguments if it.kind == "string"] if rows and rows[-1].start == token.start else []
    text = texts.shader(f"{strings[0].value}.sl") if strings else b""
    return (lists.fault(rows[-1], rows[:-1], text, code) if strings else None) or (token, said)


def _heads(arguments: Sequence[rib.Token]) -> list[rib.Token]:
    """The tokens of a shader request's list: every other place after its name (and a light's number), arrays counting as one."""
    places: list[rib.Token] = []
    depth = 0
    for it in arguments:
        if depth == 0:
            places.append(it)
        depth += (it.kind == "open") - (it.kind == "close")
    return [it for it in places[2 if len(places) > 1 and places[1].kind == "number" else 1 :: 2] if it.kind == "string"]


def _declared(data: bytes, end: int) -> set[str]:
    """The names that a list may use before a place of a scene."""
    names = set(FROM_THE_START)
    for request in rib.requests(data):
        if request.start >= end:
            break
        if request.name == "Declare" and request.arguments:
            names.add(str(request.arguments[0].value))
    return names


def _known_in(data: bytes) -> set[str]:
    """The names that a shader's text may use: its own, the predefined ones, the functions."""
    found = shader.declared(data)
    own = {it.name for it in found.parameters} | {it.name for it in found.functions} if found else set()
    listed = list(shader.tokens(data))
    locals_ = {b.text for a, b in zip(listed, listed[1:]) if a.text in shader.TYPES and b.kind == "name"}
    return own | locals_ | explain.names_of_functions() | set(PREDEFINED)


def nearest(name: str, known: Iterable[str]) -> str:
    """The known name that is nearest to one, or "" where none is near."""
    names = sorted(known)
    same = [it for it in names if it.lower() == name.lower()]
    return (same or difflib.get_close_matches(name, names, 1, 0.5 if len(name) < 4 else 0.7) or [""])[0]


def _at(file: str, token: rib.Token, code: str, said: str, status: int, near: str) -> Fault:
    return Fault(file, token.line, token.column, max(1, len(token.text.partition("\n")[0])), code, said, status, near)


def shown(path: Path) -> str:
    """A path as the user would type it."""
    short = os.path.relpath(path)
    return str(path) if short.startswith("..") else short
