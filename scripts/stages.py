"""The crates of crates.txt under their stage headings, and the order in which a scene goes through the stages."""
import os
import re

TOP = os.path.dirname(os.path.dirname(os.path.abspath(__file__)))
ORDER = ("the program", "the outside: files, frames and notes, asked through traits", "scene text and the scene", "shaders", "textures",
         "scenes with their shaders", "surfaces, camera, dicing", "the meaning of shaders", "shading", "pictures", "parts of a picture",
         "the account of a pixel", "rows of numbers", "the base: whole numbers, fixed point", "the programs", "tests of public calls")


def stages():
    """Each stage by its heading, with its crates, in the order of ORDER; a heading that ORDER lacks is a fault."""
    found, heading = {}, ""
    with open(f"{TOP}/crates.txt", encoding="utf-8") as lines:
        for line in lines:
            if line.startswith("#"):
                heading = line[1:].strip()
            elif crate := re.match(r"\w+(?=:)", line):
                found.setdefault(heading, []).append(crate[0])
    if set(found) != set(ORDER):
        raise SystemExit(f"scripts/stages.py: its order and the headings of crates.txt differ: {sorted(set(found) ^ set(ORDER))}")
    return {it: found[it] for it in ORDER}


def title(heading):
    """A heading as a title: its first clause, with a capital."""
    return heading[0].upper() + heading[1:].split(":")[0]
