"""Which Python here has the libraries that the package python/reyes and the tests need, and what it lacks, by Debian's names."""
from __future__ import annotations

import functools
import os
import shutil
import subprocess
import sys

import clone

PACKAGES = clone.TOP / "scripts/packages.txt"
ASK = "import importlib.util, sys\nprint(*(it for it in sys.argv[1:] if importlib.util.find_spec(it) is None))"


@functools.cache
def modules() -> dict[str, str]:
    """The modules of Python that are needed, each with Debian's package."""
    rows = (line.split() for line in PACKAGES.read_text(encoding="utf-8").splitlines() if line and not line.startswith("#"))
    return {module: package for package, module in rows}


@functools.cache
def lacked(python: str) -> tuple[str, ...]:
    """The packages of which this Python lacks the modules."""
    ran = subprocess.run([python, "-c", ASK, *modules()], stdin=subprocess.DEVNULL, capture_output=True, text=True)
    return tuple(modules().values()) if ran.returncode else tuple(modules()[it] for it in ran.stdout.split())


@functools.cache
def python() -> str:
    """The Python here that lacks the least."""
    found = dict.fromkeys(it for it in (sys.executable, shutil.which("python3"), "/usr/bin/python3") if it and os.access(it, os.X_OK))
    return min(found, key=lambda it: len(lacked(it)))
