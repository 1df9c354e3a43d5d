#!/usr/bin/env python3
"""Writes glass.rib: goblets of stained glass, meshes of Bezier patches that go round an axis.

  python3 glass.py > glass.rib
"""
from __future__ import annotations

HEAD = """# Goblets of stained glass, in front of one another: meshes of Bezier patches, written by glass.py, with glass.sl;
# reyes render glass.rib (in this folder, where the shaders' files are)
Display "glass.ppm" "file" "rgb"
Format 640 360 1
PixelSamples 3 3
ShadingInterpolation "smooth"
Projection "perspective" "fov" [24]
Clipping 0.5 100
Translate 0 -1.35 11
Rotate -9 1 0 0
Rotate -90 1 0 0
WorldBegin
LightSource "ambientlight" 1 "intensity" [0.35]
LightSource "distantlight" 2 "from" [-2 4 5] "to" [0 0 0] "intensity" [0.8]
LightSource "distantlight" 3 "from" [5 3 2] "to" [0 0 0] "intensity" [0.45] "lightcolor" [1 0.9 0.75]
AttributeBegin # the wall: from light to dark
  Surface "constant"
  Patch "bilinear" "P" [-14 -9 -1  14 -9 -1  -14 -9 9  14 -9 9]
    "varying color Cs" [1 0.94 0.82  0.9 0.84 0.74  0.5 0.52 0.6  0.36 0.38 0.48]
AttributeEnd
AttributeBegin # the table
  Color [0.9 0.88 0.82]
  Surface "checker" "float squares" [28] "color other" [0.3 0.33 0.38] "Kd" [0.85]
  Patch "bilinear" "P" [-14 8 0  14 8 0  -14 -9 0  14 -9 0]
AttributeEnd
"""
# The profile, as radius and height: four cubic curves, foot, stem, bowl and rim, each from the last point of the one before.
PROFILE = [(0.02, 0.1), (0.4, 0.08), (0.62, 0.05), (0.62, 0.02), (0.62, 0.16), (0.07, 0.05), (0.07, 0.45), (0.07, 0.75), (0.05, 1.0),
           (0.12, 1.15), (0.55, 1.25), (0.78, 1.5), (0.8, 1.95), (0.81, 2.25), (0.76, 2.5), (0.7, 2.75)]
# A circle of radius 1 by four Bezier curves.
ROUND = [(1, 0), (1, 0.5523), (0.5523, 1), (0, 1), (-0.5523, 1), (-1, 0.5523), (-1, 0), (-1, -0.5523), (-0.5523, -1), (0, -1),
         (0.5523, -1), (1, -0.5523)]
GOBLETS = [((-2.35, -0.6), (0.85, 0.15, 0.12)), ((-1.2, 1.2), (0.95, 0.7, 0.1)), ((0.1, -0.9), (0.12, 0.55, 0.2)),
           ((1.15, 1), (0.1, 0.35, 0.85)), ((2.4, -0.5), (0.55, 0.15, 0.65))]


def goblet(place: tuple[float, float], stain: tuple[float, float, float]) -> str:
    """A goblet that stands on the table there."""
    points = [f"{r * x:.3f} {r * y:.3f} {z:g}" for r, z in PROFILE for x, y in ROUND]
    lines = "\n".join("    " + "  ".join(points[at:at + 6]) for at in range(0, len(points), 6))
    return f"""AttributeBegin
  Translate {place[0]} {place[1]} 0
  Surface "shade" "float dark" [0.4] "float full" [0.8]
  TransformBegin Translate 0.1 -0.1 0.01 Disk 0 0.8 360 TransformEnd
  Color [{stain[0]} {stain[1]} {stain[2]}]
  Surface "glass"
  PatchMesh "bicubic" {len(ROUND)} "periodic" {len(PROFILE)} "nonperiodic" "P" [
{lines}]
AttributeEnd
"""


def main() -> None:
    print(HEAD + "".join(goblet(*it) for it in GOBLETS) + "WorldEnd")


if __name__ == "__main__":
    main()
