"""The spaces of the picture, which shaders may name: "screen", "NDC" and "raster"."""
from __future__ import annotations

from typing import TYPE_CHECKING

import numpy as np

from . import matrices
from .text import Floats

if TYPE_CHECKING:
    from .state import Options


def of_camera(options: Options, to_camera: Floats) -> dict[str, Floats]:
    """For each space of the picture a matrix of shape (4, 4) from it to world space, by the camera's options and the map from world to
    camera space. x and y are the standard's; the third number grows with the depth, and isn't.
    """
    left, right, bottom, top = options.window()
    if right == left or top == bottom:
        return {}
    across = 1 / options.slope()
    if options.perspective:
        screen = np.array([[across, 0, 0, 0], [0, across, 0, 0], [0, 0, 1, 1], [0, 0, -1, 0.0]])
    else:
        screen = np.diag([across, across, 1, 1])
    ndc = np.array([
        [1 / (right - left), 0, 0, 0], [0, 1 / (bottom - top), 0, 0], [0, 0, 1, 0], [left / (left - right), top / (top - bottom), 0, 1],
    ])
    raster = np.diag([options.width, options.height, 1, 1.0])
    steps = {"screen": screen, "NDC": screen @ ndc, "raster": screen @ ndc @ raster}
    return {name: matrices.inverse(to_camera @ it) for name, it in steps.items()}
