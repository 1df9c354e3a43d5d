"""The command line: which commands there are, and how their troubles are told.

A command is a module with `add_arguments(parser)` and `main(arguments) -> int`; it is imported only when it is called, so that a
library which one of them needs may be missing for the others.
"""
from __future__ import annotations

import argparse
import importlib
import os
import signal
import sys
import threading
from collections.abc import Sequence

from reyes.errors import PACKAGES, USAGE, Trouble, missing_library

# The name of a command, the module that does it, and what it does in a line.
COMMANDS: dict[str, tuple[str, str]] = {
    "render": ("reyes.rendering", "draws the frames of a scene, on all processors"),
    "farm": ("reyes.farm", "writes the bands of a scene's frames for GNU make, GNU parallel and Slurm"),
    "passes": ("reyes.passes", "draws pictures beside the picture: alpha, depth, normals, u and v, objects, micropolygons"),
    "shadow": ("reyes.shadow.command", "draws a scene with shadows, by maps of depths from its lights"),
    "mirror": ("reyes.shadow.mirror", "draws a scene with a flat floor or wall, or a bent thing, that mirrors it"),
    "why": ("reyes.why.command", "explains a pixel of a picture on a page: its samples, what each sees, the sum to the byte"),
    "check": ("reyes.check", "tells the faults of a scene, its shaders and textures, at their places"),
    "view": ("reyes.view", "opens pictures in the desktop's viewer, or turns them into another form"),
    "look_at": ("reyes.look_at", "prints the matrix of a camera that stands at one point and looks at another"),
    "explain": ("reyes.explain", "says what a fault's code means, and what a request or a function takes"),
    "bring_in": ("reyes.bring.command", "brings a scene as people have it into the words of this renderer's profile"),
}
PROGRAM = "python3 -m reyes"


def usage() -> str:
    """What `python3 -m reyes` alone shows."""
    width = max((len(name) for name in COMMANDS), default=0)
    lines = [f"usage: {PROGRAM} COMMAND ..", ""]
    lines += [f"  {name:{width}}  {summary}" for name, (_, summary) in COMMANDS.items()]
    return "\n".join([*lines, "", f"`{PROGRAM} COMMAND --help` says how each is called, with an example."])


def call(name: str, words: Sequence[str]) -> int:
    """Runs one command with its words and gives its status; raises Trouble for what the user is to be told."""
    if name not in COMMANDS:
        raise Trouble(f"there is no command {name!r}: `{PROGRAM}` shows them all", USAGE)
    try:
        module = importlib.import_module(COMMANDS[name][0])
        parser = argparse.ArgumentParser(prog=f"{PROGRAM} {name}", formatter_class=argparse.RawDescriptionHelpFormatter)
        module.add_arguments(parser)
        return int(module.main(parser.parse_args(list(words))))
    except ModuleNotFoundError as fault:
        if fault.name is None or fault.name.partition(".")[0] not in PACKAGES:
            raise
        raise missing_library(fault.name) from fault


def run(words: Sequence[str]) -> int:
    """The whole command line: the status of its command, with every trouble told in one line on standard error."""
    if hasattr(sys.stdout, "reconfigure"):
        sys.stdout.reconfigure(errors="backslashreplace")  # a file's name may be no text
    if threading.current_thread() is threading.main_thread():
        signal.signal(signal.SIGTERM, _broken_off)  # so that processes are ended and folders for temporary files removed
    try:
        if not words or words[0] in ("-h", "--help"):
            print(usage())
            return 0
        status = call(words[0], words[1:])
        sys.stdout.flush()
        return status
    except Trouble as trouble:
        print(f"reyes: {trouble.message}", file=sys.stderr)
        return trouble.status
    except KeyboardInterrupt:
        print("reyes: broken off", file=sys.stderr)
        return 130
    except BrokenPipeError:
        # the reader of standard output has left: what is still to be flushed at the end goes nowhere
        os.dup2(os.open(os.devnull, os.O_WRONLY), sys.stdout.fileno())
        return 141


def _broken_off(number: int, frame: object) -> None:
    raise KeyboardInterrupt
