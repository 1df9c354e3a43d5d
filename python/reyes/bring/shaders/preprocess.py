"""The lines of the preprocessor, carried out by the `cpp` that is installed, as RenderMan's own compiler had it done."""
from __future__ import annotations

import re
import shutil
import subprocess
import tempfile
import threading
from collections.abc import Sequence
from pathlib import Path
from typing import IO

from reyes.bring.shaders.tree import Place, Refused

LINE = re.compile(rb"^[ \t]*#[ \t]*([a-z]*)", re.MULTILINE)
SAID = re.compile(r"^(.*?):([0-9]+):(?:[0-9]+:)? (?:fatal )?error: (.*)$", re.MULTILINE)
IGNORED = (b"", b"pragma", b"ident", b"line")
LONGEST = 4 << 20
SECONDS = 20.0


def first_line(text: bytes) -> int:
    """The first line that is the preprocessor's, counted from 1, or 0 where there is none."""
    for found in LINE.finditer(text):
        if found[1] not in IGNORED:
            return text.count(b"\n", 0, found.start()) + 1
    return 0


def preprocessed(text: bytes, name: str, folders: Sequence[Path]) -> str:
    """The text with the lines of the preprocessor carried out, and lines that say which file goes on.

    `folders` are searched for what is included. Raises Refused where there is no `cpp`, where it finds a fault, or where what it
    writes is too long.
    """
    line = first_line(text)
    program = shutil.which("cpp")
    if program is None:
        raise Refused(Place(name, line), "`cpp` isn't there, which carries out lines that begin with # (Debian's package cpp)")
    words = [program, "-undef", "-nostdinc", "-w", "-x", "c", "-fmax-errors=1"]
    words += [f"-I{it.absolute()}" for it in folders] + ["-"]
    with tempfile.TemporaryFile() as given, tempfile.TemporaryFile() as said:
        given.write(text if text.endswith(b"\n") else text + b"\n")
        given.seek(0)
        made, status = _run(words, given, said)
        said.seek(0)
        notes = said.read(1 << 16).decode("utf-8", "replace")
    if len(made) > LONGEST:
        raise Refused(Place(name, line), f"macros that make more than {LONGEST >> 20} MB of text")
    if status != 0:
        raise _fault(notes, name, line)
    return made.decode("latin-1")


def _run(words: Sequence[str], given: IO[bytes], said: IO[bytes]) -> tuple[bytes, int]:
    """What a program writes, up to a byte past the limit, and its status; it is ended where it takes too long."""
    with subprocess.Popen(words, stdin=given, stdout=subprocess.PIPE, stderr=said) as process:
        assert process.stdout is not None
        timer = threading.Timer(SECONDS, process.kill)
        timer.start()
        try:
            made = process.stdout.read(LONGEST + 1)
            if len(made) > LONGEST:
                process.kill()
        finally:
            timer.cancel()
    return made, process.returncode


def _fault(notes: str, name: str, line: int) -> Refused:
    """What `cpp` said first, at its place."""
    found = SAID.search(notes)
    if found is None:
        return Refused(Place(name, line), "`cpp` didn't come to its end")
    file = name if found[1].startswith("<") else found[1].rpartition("/")[2]
    words = found[3].replace("No such file or directory", "isn't in the folders of shaders")
    return Refused(Place(file, int(found[2])), f"#include or macro: {words}")
