#!/usr/bin/env python3
"""drawn_texts.py FOLDER: writes into the folder scenes that would be dear to draw where work or memory were a product of two lengths
of the text, with their shaders. Each draws 2 by 2 pixels; run `reyes render KIND.rib` in the folder."""
import os, sys

if len(sys.argv) < 2 or {"-h", "--help"} & set(sys.argv):
    print(__doc__, file=sys.stdout if len(sys.argv) > 1 else sys.stderr)
    sys.exit(0 if len(sys.argv) > 1 else 2)
to = sys.argv[1]
os.makedirs(to, exist_ok=True)
HEAD = 'Format 2 2 1\nPixelSamples 1 1\nPixelFilter "box" 1 1\nDisplay "%s.ppm" "file" "rgb"\n'
CORNERS = '"P" [-1 -1 1 1 -1 1 -1 1 1 1 1 1]'
# 999 frames whose ends bring back the lights that were made before them, 63,936 in the end
LIT_FRAMES = ('LightSource "pointlight" 1\n' * 64 + "FrameBegin 1 WorldBegin WorldEnd FrameEnd\n") * 999


def mesh(sides):
    points = " ".join(f"{2 * x / sides - 1:.4f} {2 * y / sides - 1:.4f} 1" for y in range(sides + 1) for x in range(sides + 1))
    return f'PatchMesh "bilinear" {sides + 1} "nonperiodic" {sides + 1} "nonperiodic" "P" [{points}]'


MESH = mesh(256)


def world(kind, requests, before=""):
    return HEAD % kind + before + f"WorldBegin\n{requests}\nWorldEnd\n"


def variables(count):
    return "".join(f' "constant float p{i}" 1' for i in range(count))


SQUARE = ' "P" [0 0 1 1 0 1 0 1 1 1 1 1]'
# patches of one request each, and between them a light that is turned off and on
ALONE = 'LightSource "pointlight" 1\n' + f'Patch "bilinear"{SQUARE} Illuminate 1 0\nPatch "bilinear"{SQUARE} Illuminate 1 1\n' * 32_768
KINDS = {
    # each of a shader's parameters is looked for among a primitive's variables
    "variables": world("variables", f'Surface "many"\nPatch "bilinear" {CORNERS}{variables(600_000)}'),
    # each patch of a mesh has a leaf at least, and each leaf is given each parameter of its shader
    "parameters_of_a_mesh": world("parameters_of_a_mesh", f'Surface "some"\n{mesh(16)}{variables(4_000)}'),
    # each leaf is under all lights that are in force, whether its shader asks them or not
    "lights_unasked": world("lights_unasked", f'Surface "constant"\nPatch "bilinear" {CORNERS}', LIT_FRAMES),
    "lights_asked": world("lights_asked", f'Surface "matte"\nPatch "bilinear" {CORNERS}', LIT_FRAMES),
    # each patch of a mesh has the mesh's constant values and variables, and each primitive the lights in force
    "string_of_a_mesh": world("string_of_a_mesh", f'{MESH} "constant string a" ["{"x" * 15_000_000}"]'),
    "variables_of_a_mesh": world("variables_of_a_mesh", f'{MESH}{variables(560_000)}'),
    "patches_under_lights": world("patches_under_lights", f'Surface "constant"\n{MESH}', LIT_FRAMES),
    "requests_under_lights": world("requests_under_lights", f'Surface "constant"\n{ALONE}', LIT_FRAMES),
}
for kind, text in KINDS.items():
    with open(f"{to}/{kind}.rib", "w", encoding="ascii") as it:
        it.write(text)
for name, count in ("many", 20_000), ("some", 4_000):
    with open(f"{to}/{name}.sl", "w", encoding="ascii") as it:
        it.write(f"surface {name}(" + " ".join(f"float p{i} = 0;" for i in range(count)) + ") { Ci = p0; Oi = 1; }\n")
