"""`farm`: writes the bands of a scene's frames as work for other schedulers: GNU make, GNU parallel, Slurm."""
from __future__ import annotations

import argparse
import os
import shlex
import shutil
from pathlib import Path

from reyes import bands, files, scene
from reyes.drawing import Drawing, Picture
from reyes.errors import USAGE, Trouble, file_trouble
from reyes.rendering import NO_FRAME, add_changes, scene_of, settings, target_of

BAND = """#!/bin/sh
# Draws one band, by its name in the file `list`, into bands/NAME.ppm; one that is there is left as it is. REYES may name the program.
set -eu
cd "$(dirname "$0")"
top=$PWD
[ ! -e "bands/$1.ppm" ] || exit 0
line=$(grep -F -- "$1 " list)
frame=$(echo "$line" | cut -d ' ' -f 2)
part=$top/bands/$1.$$.part
trap 'rm -f "$part"' EXIT
cd {inner}
{{ cat "$top/$frame.head"; echo "CropWindow $(echo "$line" | cut -d ' ' -f 3-) Display \\"/dev/stdout\\" \\"file\\" \\"rgb\\""; cat "$top/$frame.tail"; }} |
  "${{REYES:-$top/reyes}}" render /dev/stdin {words} > "$part"
mv "$part" "$top/bands/$1.ppm"
"""
JOIN = """#!/bin/sh
# Joins the bands of each frame, or of those whose numbers are given, once they are all there.
set -eu
cd "$(dirname "$0")"
frame() {{
  target=$1 rows=$2
  shift 2
  for band; do [ -e "bands/$band.ppm" ] || {{ echo "bands/$band.ppm: missing" >&2; exit 6; }}; done
  {{ read -r kind; read -r width height; read -r most; }} < "bands/$1.ppm"
  {{ printf 'P6\\n%s %s\\n%s\\n' "$width" "$rows" "$most"; for band; do tail -n +4 "bands/$band.ppm"; done; }} > "$target.part"
  mv "$target.part" "$target"
}}
[ $# -gt 0 ] || set -- {numbers}
for number; do
  case $number in
{cases}
  esac
done
"""
MAKEFILE = """# make -j 8
all: {targets}
{rules}
bands/%.ppm:
\t./band $*
.PHONY: all {targets}
"""
SLURM = """#!/bin/sh
# ./slurm [words for sbatch ..]: an array of one task for each band, and a job that joins them when all have ended well. It prints both
# numbers. BANDS=3,7 draws these lines of `list` alone.
set -eu
cd "$(dirname "$0")"
array=$(sbatch --parsable "$@" --array "${{BANDS:-1-{count}}}" --output "log.%a" --wrap './band "$(sed -n "${{SLURM_ARRAY_TASK_ID}}s/ .*//p" list)"')
join=$(sbatch --parsable "$@" --dependency "afterok:$array" --output log.join --wrap ./join)
echo "$array $join"
"""
README = """The bands of {name}, {count} in all, and what draws and joins them; nothing but this folder is needed.

make -j 8                                                            here
parallel -j 8 --colsep ' ' ./band {{1}} :::: list && ./join             here, or on hosts that share this folder, with
                                                                     --sshlogin 8/one.example,8/two.example --workdir "$PWD"
./slurm --time 10                                                    by Slurm

Each goes on where it was broken off. The pictures come into this folder: {pictures}.
"""


def add_arguments(parser: argparse.ArgumentParser) -> None:
    parser.description = "Writes the bands of a scene's frames into a folder, as a makefile, a list for GNU parallel and an array for Slurm; it needs no Python where it runs."
    parser.epilog = "example:\n  python3 -m reyes farm tea.rib -o tea.farm --bands 32 && make -C tea.farm -j 8"
    parser.add_argument("scene", metavar="SCENE", help="the scene's file, or - for standard input")
    parser.add_argument("-o", "--output", required=True, metavar="FOLDER", help="the folder; what is there of the same scene, shaders, textures and program is used")
    parser.add_argument("--bands", type=int, default=32, metavar="N", help="bands of each frame, about (32)")
    add_changes(parser)


def main(arguments: argparse.Namespace) -> int:
    if not 1 <= arguments.bands <= 1000:
        raise Trouble(f"--bands {arguments.bands}: it is 1 to 1000", USAGE)
    data, name, place = scene_of(arguments.scene)
    drawing = Drawing(data, name, place, settings(arguments, None, 1))
    drawing.accepted()
    if not drawing.frames:
        raise Trouble(f"{name}: {NO_FRAME}")
    write(drawing, Path(arguments.output), name, arguments.bands)
    return 0


def write(drawing: Drawing, folder: Path, name: str, count: int) -> None:
    """Writes the folder. Raises Trouble where that can't be done."""
    pictures = [drawing.picture(frame, None) for frame in drawing.frames]
    targets = {Path(target_of(it.frame, None, 1)).name: it for it in pictures}
    if len(targets) < len(pictures):
        targets = {f"{it.frame.place:04d}.{Path(it.frame.options.display).name}": it for it in pictures}
    try:
        (folder / "bands").mkdir(parents=True, exist_ok=True)
        inner = _files(folder, drawing.files)
        lines = {target: _bands(folder, drawing, it, count) for target, it in targets.items()}
        listed = [line for each in lines.values() for line in each]
        places = [(it.frame.place, shlex.quote(target), it.kept.rows, [line.split()[0] for line in lines[target]]) for target, it in targets.items()]
        cases = [f"    {place}) frame {target} {rows[1] - rows[0]} {' '.join(names)} ;;" for place, target, rows, names in places]
        rules = [f"frame{place}: {' '.join(f'bands/{it}.ppm' for it in names)}\n\t./join {place}" for place, _, _, names in places]
        numbers = [str(place) for place, _, _, _ in places]
        words = " ".join(drawing.words)
        _program(folder / "reyes", drawing.program)
        _script(folder / "band", BAND.format(inner=inner, words=words))
        _script(folder / "join", JOIN.format(numbers=" ".join(numbers), cases="\n".join(cases)))
        _script(folder / "slurm", SLURM.format(count=len(listed)))
        (folder / "list").write_text("".join(f"{line}\n" for line in listed))
        (folder / "Makefile").write_text(MAKEFILE.format(targets=" ".join(f"frame{it}" for it in numbers), rules="\n".join(rules)))
        (folder / "README").write_text(README.format(name=name, count=len(listed), pictures=", ".join(targets)))
    except OSError as fault:
        raise file_trouble(fault.filename or folder, fault) from fault


def _bands(folder: Path, drawing: Drawing, it: Picture, count: int) -> list[str]:
    """Writes a frame's text in two halves, and gives its bands: the name of each, the frame's place, and the crop."""
    head, tail = drawing.scene.text(it.frame, drawing.settings.changes)
    (folder / f"{it.frame.place}.head").write_bytes(head)
    (folder / f"{it.frame.place}.tail").write_bytes(tail)
    spans = bands.cut(it.kept.rows, [it.kept.rows], count)
    return [f"{it.kept.key[:16]}.{rows[0]:04d}-{rows[1]:04d} {it.frame.place} {scene.crop(it.frame, rows)}" for rows in spans]


def _files(folder: Path, found: files.Files) -> str:
    """Copies shaders and textures into the folder `files`, and gives the place in it where the program is to run."""
    shutil.rmtree(folder / "files", ignore_errors=True)
    inner = files.inner(folder / "files", found)
    for name, it in found.items():
        target = files.within(inner, name)
        if target is not None:
            shutil.copyfile(it.path, target)
    return shlex.quote(os.path.relpath(inner, folder))


def _program(target: Path, program: Path) -> None:
    """Puts the program into the folder: a copy, or a link where it is a script that needs what stands beside it."""
    target.unlink(missing_ok=True)
    with program.open("rb") as data:
        if data.read(4) == b"\x7fELF":
            shutil.copy(program, target)
        else:
            target.symlink_to(program)


def _script(path: Path, text: str) -> None:
    path.write_text(text)
    path.chmod(0o755)
