#!/usr/bin/env python3
"""Writes landscape.rib: mountains behind a lake, one bicubic B-spline mesh whose heights come from a hash.

  python3 landscape.py > landscape.rib
"""
from __future__ import annotations

from math import floor

COLUMNS, ROWS = 40, 46  # control points
HEAD = """# Mountains behind a lake: one bicubic mesh of B-splines, written by landscape.py, under dents, with grass, rock and snow by
# height and slope: reyes render landscape.rib (in this folder, where the shaders' files are)
Display "landscape.ppm" "file" "rgb"
Format 640 360 1
PixelSamples 3 3
ShadingInterpolation "smooth"
Projection "perspective" "fov" [36]
Clipping 0.5 200
Translate 0 -1.9 2
Rotate -1 1 0 0
WorldBegin
LightSource "ambientlight" 1 "intensity" [0.4] "lightcolor" [0.75 0.85 1]
LightSource "distantlight" 2 "from" [-1 0.75 -0.35] "to" [0 0 0] "intensity" [1.2] "lightcolor" [1 0.9 0.75]
AttributeBegin # the sky
  Surface "constant"
  ShadingRate 16
  Patch "bilinear" "P" [-120 -5 150  120 -5 150  -120 80 150  120 80 150]
    "varying color Cs" [0.86 0.87 0.86  0.95 0.88 0.78  0.16 0.34 0.62  0.2 0.38 0.65]
AttributeEnd
Atmosphere "fog" "distance" [75] "background" [0.78 0.82 0.88]
AttributeBegin # the lake
  Color [0.040 0.16 0.2]
  Surface "water" "float Ks" [0.6]
  Attribute "displacementbound" "sphere" [0.03]
  TransformBegin Rotate 20 0 1 0 Scale 0.5 0.1 0.14 Displacement "bumpy" "amplitude" [0.05] TransformEnd
  Patch "bilinear" "P" [-5 0 0  5 0 0  -40 0 50  40 0 50]
AttributeEnd
ShadingRate 2.5
Surface "land"
Displacement "dents" "amplitude" [1] "float frequency" [0.55]
Attribute "displacementbound" "sphere" [0.8]
Basis "b-spline" 1 "b-spline" 1
"""


def hashed(x: int, z: int) -> float:
    """A number from 0 to 1 for a point of the whole-number lattice."""
    n = (x * 374761393 + z * 668265263 + 1013904223) & 0xFFFFFFFF
    n = ((n ^ (n >> 13)) * 1274126177) & 0xFFFFFFFF
    return ((n ^ (n >> 16)) & 0xFFFF) / 65536


def noise(x: float, z: float) -> float:
    """Those numbers, blended between the points."""
    i, k = floor(x), floor(z)
    u, v = x - i, z - k
    u, v = u * u * (3 - 2 * u), v * v * (3 - 2 * v)
    near = hashed(i, k) * (1 - u) + hashed(i + 1, k) * u
    far = hashed(i, k + 1) * (1 - u) + hashed(i + 1, k + 1) * u
    return near * (1 - v) + far * v


def ridges(x: float, z: float) -> float:
    """Crests of five sizes, each turned against the others."""
    total, size = 0.0, 1.0
    for _ in range(5):
        total += size * (1 - abs(2 * noise(x, z) - 1)) ** 2
        x, z, size = 1.6 * x - 1.2 * z + 7, 1.2 * x + 1.6 * z + 3, size / 2
    return total


def height(x: float, z: float) -> float:
    """A shore on both sides, a lake between, and mountains farther away."""
    bay = 4 * noise(0.2 * x, 0.2 * z)
    shore = min(1, max(0, (abs(x + 1) - 1.5 - 0.16 * z - bay / 2) / 9))
    back = min(1, max(0, (z - 17 - 2 * bay) / 28))
    rise = max(shore, back)
    return -0.68 + rise * (1.5 + (2.2 + 5.5 * back) * ridges(0.1 * x, 0.1 * z + 5))


def main() -> None:
    points = []
    for row in range(ROWS):
        z = 2 + 78 * (row / (ROWS - 1)) ** 1.6
        for column in range(COLUMNS):
            x = (column / (COLUMNS - 1) - 0.5) * (10 + 1.5 * z)
            points.append(" ".join(f"{round(it, 2):.3f}" for it in (x, height(x, z), z)))
    lines = ["  ".join(points[at:at + 6]) for at in range(0, len(points), 6)]
    print(HEAD + f'PatchMesh "bicubic" {COLUMNS} "nonperiodic" {ROWS} "nonperiodic" "P" [\n' + "\n".join(lines) + "]\nWorldEnd")


if __name__ == "__main__":
    main()
