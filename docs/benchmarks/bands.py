#!/usr/bin/env python3
"""Measures frames drawn by bands and in parts: the rows of the table of docs/FARM.md.

  docs/benchmarks/bands.py PROGRAM [SCENE:N,N.. ..]     as teapot.rib:8,32 (the scenes and numbers of that table)

For each it prints the processor seconds of the whole frame, and of N bands and of N parts, all together and the most of one, each with the
program's default options, one run each. The joined bands have to have the bytes of the whole; `reyes join` sees to it for parts.
"""
import os, resource, shutil, subprocess, sys, tempfile
from pathlib import Path

TOP = Path(__file__).resolve().parent.parent.parent
sys.path.insert(0, str(TOP / "python"))
from reyes import bands, scene

ALL = ["teapot.rib:8,32", "studio.rib:8,32", "still_life.rib:8,16,32", "tea.rib:8,16,32"]


def seconds(words, room, given=None):
    """The processor seconds of a run, and what it wrote to standard output."""
    before = resource.getrusage(resource.RUSAGE_CHILDREN)
    ended = subprocess.run(words, cwd=room, check=True, input=given, stdout=subprocess.PIPE, stderr=subprocess.DEVNULL)
    after = resource.getrusage(resource.RUSAGE_CHILDREN)
    return after.ru_utime + after.ru_stime - before.ru_utime - before.ru_stime, ended.stdout


def by_bands(program, room, name, count):
    """The seconds of each band of a scene's first frame, and the joined bytes."""
    read = scene.read((room / name).read_bytes())
    frame = read.frames[0]
    head, tail = read.text(frame)
    times, parts = [], []
    for rows in bands.cut(frame.rows, [frame.rows], count):
        spent, data = seconds([program, "render", "/dev/stdin"], room, head + scene.band(frame, rows).encode() + tail)
        top, part = bands.body(data, rows)
        times.append(spent)
        parts.append(part)
    return times, bands.joined(top, parts)


def by_parts(program, room, name, count):
    """The seconds of each part of a scene."""
    return [seconds([program, "part", name, "--part", str(it), "--of", str(count)], room)[0] for it in range(count)]


def main(words):
    if not words or words[0].startswith("-"):
        print(__doc__, end="")
        return 0 if words else 2
    program = os.path.abspath(words[0])
    for row in words[1:] or ALL:
        name, _, counts = row.partition(":")
        with tempfile.TemporaryDirectory() as folder:
            room = Path(folder)
            for it in (TOP / "examples").iterdir():
                if it.suffix in (".rib", ".sl", ".ppm"):
                    shutil.copy(it, room)
            picture = room / scene.read((room / name).read_bytes()).frames[0].options.display
            whole = seconds([program, "render", name], room)[0]
            wanted = picture.read_bytes()
            for count in map(int, counts.split(",")):
                banded, data = by_bands(program, room, name, count)
                assert data == wanted, (name, count)
                parted = by_parts(program, room, name, count)
                cells = [f"`{name}`", f"{whole:.2f}", *(f"{len(it)}: {sum(it):.2f}, {max(it):.2f}" for it in (banded, parted))]
                print(f"| {' | '.join(cells)} |", flush=True)
    return 0


if __name__ == "__main__":
    sys.exit(main(sys.argv[1:]))
