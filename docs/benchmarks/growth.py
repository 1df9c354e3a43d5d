#!/usr/bin/env python3
"""How time and memory grow with a picture: growth.py PROGRAM, the built program (crates/reyes/out/reyes). Prints rows for docs/BENCHMARKS.md.

The demonstration by its number of patches, the teapot by its width in pixels, a frame of 4,096 by 4,096 pixels beside one of 256 by 256, and
the teapot by the points of grids that may be kept. Processor seconds and the greatest memory of the program alone, and what it says of shadings.
"""
import os, re, resource, subprocess, sys, tempfile

EXAMPLES = os.path.join(os.path.dirname(os.path.abspath(__file__)), "..", "..", "examples")


def run(program, words, room):
    """Processor seconds, megabytes and the note of a run."""
    child = subprocess.Popen([program, *words], cwd=room, stderr=subprocess.PIPE, stdout=subprocess.DEVNULL, text=True)
    note = child.stderr.read().strip()
    _, status, used = os.wait4(child.pid, 0)
    child.returncode = os.waitstatus_to_exitcode(status)
    return used.ru_utime + used.ru_stime, used.ru_maxrss / 1024, note if child.returncode == 0 else f"status {child.returncode}: {note}"


def teapot(width, samples=None):
    """The teapot's scene at another width, the height in proportion."""
    with open(os.path.join(EXAMPLES, "teapot.rib"), encoding="utf-8") as it:
        text = it.read()
    old = re.search(r"Format (\d+) (\d+) 1", text)
    height = width * int(old[2]) // int(old[1])
    text = text.replace(old[0], f"Format {width} {height} 1")
    return text if samples is None else re.sub(r"PixelSamples \S+ \S+", f"PixelSamples {samples}", text)


def square(width):
    return re.sub(r"Format \d+ \d+ 1", f"Format {width} {width} 1", teapot(width))


def main(words):
    if {"-h", "--help"} & set(words):
        print(__doc__, end="")
        return
    if len(words) != 1:
        sys.exit(__doc__)
    program = os.path.abspath(words[0])
    with tempfile.TemporaryDirectory() as room:
        def row(name, *command):
            seconds, megabytes, note = run(program, command, room)
            print(f"| {name} | {seconds:.2f} | {megabytes:.0f} MB | {note.split(': ', 1)[-1]} |", flush=True)

        def scene(text):
            with open(f"{room}/s.rib", "w", encoding="utf-8") as it:
                it.write(text)

        for patches in (50, 100, 200, 400, 800):
            row(f"`demo {patches}`", "demo", str(patches))
        for width in (200, 400, 800, 1600):
            scene(teapot(width))
            row(f"teapot, {width} wide", "render", "s.rib", "--stats")
        for width in (256, 4096):
            scene(square(width))
            row(f"teapot, {width} by {width}", "render", "s.rib", "--stats")
        scene(teapot(400))
        for points in (289, 10000, 1000000):
            row(f"teapot, 400 wide, `--grid-points {points}`", "render", "s.rib", "--stats", "--grid-points", str(points))
        for side in (4, 16, 64):
            row(f"teapot, 400 wide, `--bucket {side}`", "render", "s.rib", "--stats", "--bucket", str(side))


if __name__ == "__main__":
    main(sys.argv[1:])
