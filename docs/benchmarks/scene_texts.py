#!/usr/bin/env python3
"""scene_texts.py FOLDER [MEGABYTES]: writes into the folder scene texts of that size (16 where none is said, the longest that a
scene may have), as KIND.rib, each made to be dear where names are looked for one by one, or where something is as deep as
the text is long. ANSWERS has the note that `reyes check KIND.rib` has to write ('-' for none)."""
import os, sys

if len(sys.argv) < 2 or {"-h", "--help"} & set(sys.argv):
    print(__doc__, file=sys.stdout if len(sys.argv) > 1 else sys.stderr)
    sys.exit(0 if len(sys.argv) > 1 else 2)
to = sys.argv[1]
MOST = int(float(sys.argv[2]) * 1_048_576) if len(sys.argv) > 2 else 16_777_216
os.makedirs(to, exist_ok=True)
PATCH = 'Patch "bilinear" "P" [0 0 1 1 0 1 0 1 1 1 1 1]\n'


def full(front, step, back="", share=1.0):
    """The step as often as it fits; a step with {} is numbered."""
    room = int(MOST * share) - len(front) - len(back)
    parts, size, i = [], 0, 0
    while True:
        s = step.replace("{}", str(i))
        if size + len(s) > room:
            return front + "".join(parts) + back
        parts.append(s)
        size += len(s)
        i += 1


def uses(count_share, use):
    """Declarations in one share of the text, and uses of the declared names in the rest."""
    declared = full("", 'Declare "a{}" "float"\n', share=count_share)
    n = declared.count("\n")
    parts, size, i = [declared], len(declared), 0
    while True:
        s = use % (i * 7919 % n)
        if size + len(s) > MOST:
            return "".join(parts)
        parts.append(s)
        size += len(s)
        i += 1


def mesh(kind, along, points, variables=""):
    """A mesh of that many points each way, which makes 65,536 patches."""
    return (f'WorldBegin\nPatchMesh "{kind}" {along} "nonperiodic" {along} "nonperiodic" "P" [{points * along * along}]{variables}\n', "kind.rib:2: N4")


def faces(count):
    """Squares that share their points with their neighbours in a row."""
    corners = " ".join(f"{2 * i} {2 * i + 1} {2 * i + 3} {2 * i + 2}" for i in range(count))
    points = " ".join(f"{i * 0.0001:.4f} {j} 1" for i in range(count + 1) for j in (0, 1))
    return (f"WorldBegin\nPointsPolygons [{'4 ' * count}] [{corners}] \"P\" [{points}]\n", "kind.rib:2: N4")


# 1,000 frames whose ends bring back the lights that were made before them, 64,000 in the end
LIT_FRAMES = ('LightSource "a" 1\n' * 64 + "FrameBegin 1 WorldBegin WorldEnd FrameEnd\n") * 1000

KINDS = {
    # meshes and polygons of 65,536 patches
    "mesh_bilinear": mesh("bilinear", 257, "0 .5 1 "),
    "mesh_coloured": mesh("bilinear", 257, "0 .5 1 ", ' "Cs" [' + "1 .5 0 " * (257 * 257) + ']'),
    "mesh_bicubic": mesh("bicubic", 769, "0 .5 1 "),
    "faces": faces(65536),
    # names
    "declared": (full("", 'Declare "a{}" "float"\n'), "-"),
    "declared_and_used": (uses(0.5, 'Surface "m" "a%d" 1\n'), "-"),
    "declared_again": (full("", 'Declare "a" "float"\n'), "-"),
    "declared_long_names": (full("", 'Declare "' + "a" * 4000 + '{}" "float"\n'), "-"),
    "parameters_of_one_name": (full('Surface "m" ', '"Kd" 1 '), "-"),
    "parameters_inline": (full('Surface "m" ', '"float b{}" 1 '), "-"),
    "parameters_undeclared": (full('Surface "m" ', '"b{}" 1 '), "kind.rib:1: S4"),
    "points_of_one_name": (full('WorldBegin Patch "bilinear" ', '"P" [1] '), "kind.rib:1: G5"),
    "variables_of_one_patch": (full('WorldBegin Patch "bilinear" "P" [0 0 1 1 0 1 0 1 1 1 1 1] ', '"constant float a{}" 1 '), "kind.rib:1: N4"),
    "one_long_token": (full('Surface "m" "', "a ", '" 1'), "kind.rib:1: S4"),
    # requests
    "surfaces": (full("", 'Surface "matte" "Kd" [1]\n'), "-"),
    "surfaces_had": (full("WorldBegin\n", 'Surface "constant"\n' + PATCH, "WorldEnd\n", share=min(1.0, 64000 * 66 / MOST)), "-"),
    "lights": (full("", 'LightSource "a" 1 WorldBegin WorldEnd\n', share=min(1.0, 999 * 38 / MOST)), "-"),
    "switched": (full('LightSource "a" 1\n' * 64, "Illuminate 1 0 Illuminate 1 1\n"), "-"),
    # blocks and depth
    "blocks_lit": (full(LIT_FRAMES, "AttributeBegin AttributeEnd\n"), "-"),
    "switched_lit": (full(LIT_FRAMES + 'LightSource "a" 1\n', "Illuminate 1 0 Illuminate 1 1\n"), "-"),
    "blocks_switched_lit": (full(LIT_FRAMES + 'LightSource "a" 1\n', "AttributeBegin Illuminate 1 0 AttributeEnd\n"), "-"),
    "blocks_64": (full("", "AttributeBegin\n" * 64 + "AttributeEnd\n" * 64), "-"),
    "frames_named": (full('Display "' + "a" * (MOST // 2) + '" "file" "rgb"\n', "FrameBegin 1 FrameEnd\n"), "-"),
    "blocks_open": (full("", "AttributeBegin\n"), "kind.rib:65: M1"),
    "brackets": ("[" * MOST, "kind.rib:1: S3"),
    "arrays": (full("Option ", "[1]"), "-"),
    "one_array": (full("Option [", "1 ", "]"), "-"),
    "comments": (full("", "#\n"), "-"),
    "one_comment": ("#" * MOST, "-"),
    "strings": (full("Option ", '""'), "-"),
    "passed_over": (full("", "version 3.03\n"), "-"),
    "left_out_names": (full("", "Translate 0 0 0\n", "Nothing\n"), None),
}
declared = full("", 'Declare "a{}" "float"\n', share=0.5)
n = declared.count("\n")
KINDS["used_in_one_list"] = (full(declared + 'Surface "m" ', '"a{}" 1 ', share=0.7), "-")

with open(os.path.join(to, "ANSWERS"), "w") as answers:
    for kind, (text, note) in KINDS.items():
        with open(os.path.join(to, kind + ".rib"), "w") as f:
            f.write(text)
        if note is None:
            note = "kind.rib:%d: S1" % (text.count("\n"))
        print(kind, note.replace("kind", kind), file=answers)
