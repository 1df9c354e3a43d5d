"""Requests that the profile has in other words: transformations, bases, sides, displacement bounds, solids, and brackets around numbers."""
from __future__ import annotations

from collections.abc import Sequence

import numpy as np

from . import matrices, nets, types, variables
from .changes import LEFT, NEAR, SAME
from .state import BASES, Basis
from .text import Argument, Floats, Request
from .work import Work

# How many bare numbers follow, and after which argument.
BARE = {"Translate": (0, 3), "Scale": (0, 3), "Rotate": (0, 4), "Clipping": (0, 2), "Format": (0, 3), "PixelSamples": (0, 2), "Exposure": (0, 2),
        "ScreenWindow": (0, 4), "CropWindow": (0, 4), "Shutter": (0, 2), "ShadingRate": (0, 1), "Sides": (0, 1), "FrameAspectRatio": (0, 1),
        "PixelFilter": (1, 2), "Quantize": (1, 4), "FrameBegin": (0, 1)}
WORDS = {"Declare": (0, 1), "Display": (0, 1, 2), "Projection": (0,), "Surface": (0,), "Displacement": (0,), "Atmosphere": (0,), "LightSource": (0,),
         "AreaLightSource": (0,), "Orientation": (0,), "Patch": (0,), "PatchMesh": (0, 2, 4), "Basis": (0, 2), "ShadingInterpolation": (0,),
         "PixelFilter": (0,), "Quantize": (0,), "Attribute": (0,)}


def bare(work: Work, request: Request) -> list[Request] | None:
    """Numbers and words without brackets, where the profile has none."""
    args = list(request.args)
    first, count = BARE.get(request.name, (0, 0))
    if count and any(isinstance(it, np.ndarray) for it in args[first:]):
        args[first:] = [float(it) for it in np.concatenate([variables.floats(it) for it in args[first:]])]
    for at in WORDS.get(request.name, ()):
        if at < len(args) and isinstance(args[at], list) and len(request.strings(at)) == 1:
            args[at] = request.strings(at)[0]
    if request.name in ("ConcatTransform", "Transform", "MotionBegin") and len(args) > 1 and all(isinstance(it, float) for it in args):
        args = [np.array(args)]
    if len(args) == len(request.args) and all(a is b for a, b in zip(args, request.args)):
        return None
    work.tell(SAME, request, "brackets around numbers and words as the profile has them")
    return [request.made(request.name, *args)]


def of_matrix(request: Request, matrix: Floats, name: str = "ConcatTransform") -> list[Request]:
    return [request.made(name, matrix.ravel())]


def skewed(work: Work, request: Request) -> list[Request] | None:
    matrix = matrices.of_request("Skew", request.numbers())
    if matrix is None:
        return None
    work.tell(SAME, request, "`Skew` turned into its matrix")
    return of_matrix(request, matrix)


def shifted(work: Work, request: Request) -> list[Request] | None:
    """Structure Synth writes `Translate` before the sixteen numbers of a matrix."""
    n = request.numbers()
    if len(n) != 16:
        return None
    work.tell(SAME, request, "`Translate` of a matrix turned into `ConcatTransform`")
    return of_matrix(request, np.array(n))


def affine(work: Work, request: Request) -> list[Request] | None:
    """A matrix whose last column is a multiple of 0 0 0 1, divided by it."""
    n = request.array(0)
    if len(n) != 16 or not n[15] or n[15] == 1 or n[[3, 7, 11]].any():
        return None
    work.tell(SAME, request, f"`{request.name}` divided by the last number of its matrix")
    return of_matrix(request, n / n[15], request.name)


def to_space(work: Work, request: Request) -> list[Request] | None:
    """`CoordSysTransform` as a matrix, where the space has been named."""
    name, world = request.word(0) or "", work.state.world
    spaces = {**work.state.spaces, "camera": matrices.IDENTITY, "world": world[0] if world else matrices.IDENTITY}
    if name not in spaces:
        return [] if work.tell(LEFT, request, f"`CoordSysTransform` to `{name}`, which isn't named before, left out") else None
    work.tell(SAME, request, "`CoordSysTransform` turned into its matrix")
    return of_matrix(request, spaces[name] @ matrices.inverse(world[0]) if world else spaces[name], "Transform")


def scoped(work: Work, request: Request) -> list[Request] | None:
    work.tell(SAME, request, "`ScopedCoordinateSystem` turned into `CoordinateSystem`")
    return [request.made("CoordinateSystem", *request.args)]


def orientation(work: Work, request: Request) -> list[Request] | None:
    """`Orientation` by hands as one by sides: which one that is depends on whether the transformation mirrors."""
    if request.word(0) not in ("lh", "rh"):
        return None
    outside = (request.word(0) == "rh") == matrices.is_mirrored(work.state.to_camera())
    work.tell(SAME, request, '`Orientation` "lh" or "rh" turned into "outside" or "inside"')
    return [request.made("Orientation", "outside" if outside else "inside")]


def bound(work: Work, request: Request) -> list[Request] | None:
    """A displacement bound in camera space that is no smaller; and on which side of trimming curves a surface is."""
    if request.word(0) == "trimcurve":
        sense = work.value(request, 1, "sense")
        work.state.set(trim_outside=variables.strings(sense)[:1] == ["outside"] if sense is not None else False)
    if request.word(0) != "displacementbound":
        return None
    sphere, space = work.value(request, 1, "sphere"), work.value(request, 1, "coordinatesystem")
    numbers = variables.floats(sphere) if sphere is not None else np.zeros(0)
    if len(numbers) != 1 or request.args[1] in ("sphere", "float sphere") and len(request.args) == 3:
        return None
    name = (variables.strings(space) or ["camera"])[0] if space is not None else "camera"
    factor = 1.0 if name == "camera" else matrices.stretch(work.state.to_camera())
    work.tell(SAME, request, "a displacement bound put into camera space, no smaller")
    return [request.made("Attribute", "displacementbound", "sphere", np.array([float(numbers[0]) * factor]))]


def solid(work: Work, request: Request) -> list[Request] | None:
    """Solids as blocks: unions are what they show, of others all parts are drawn."""
    operation = request.word(0) or ""
    if request.name == "SolidEnd":
        return [request.made("AttributeEnd")] if work.solids.pop() else None
    whole = operation in ("primitive", "union")
    words = "`SolidBegin` turned into a block" if whole else f"`SolidBegin` {operation}: all its parts are drawn, whole"
    made = work.tell(SAME if whole else LEFT, request, words)
    work.solids.append(made)
    return [request.made("AttributeBegin")] if made else None


# ---- bases
def named(matrix: Floats) -> str | None:
    """The name of a basis, or None."""
    return next((name for name, it in BASES.items() if np.allclose(it, matrix.reshape(4, 4), atol=1e-4)), None)


def basis(work: Work, request: Request) -> list[Request] | None:
    """A basis by its name. One without a name is taken out, and meshes in it become Bezier ones."""
    if len(request.args) != 4:
        return None
    sides: list[Argument] = []
    changed = False
    for at in (0, 2):
        matrix, word = request.array(at), request.word(at)
        name = named(matrix) if len(matrix) == 16 else "b-spline" if word == "bspline" else word
        changed = changed or len(matrix) == 16 or name != word
        sides += [name or "", request.args[at + 1]]
    work.state.set(own_basis="" in sides)
    if "" in sides:
        work.tell(SAME, request, "a `Basis` without a name taken out: meshes in it turned into Bezier ones")
        work.state.follow(request)
        return []
    if changed:
        work.tell(SAME, request, "`Basis` of a matrix turned into its name")
        return [request.made("Basis", *sides)]
    return None


def mesh(work: Work, request: Request) -> list[Request] | None:
    """A bicubic patch or mesh under a basis that the profile hasn't."""
    if not work.state.attributes.own_basis or request.word(0) != "bicubic":
        return None
    single, own = request.name == "Patch", work.state.attributes.basis
    held = work.variables(request, 1 if single else 5)
    points = variables.points_of(held)
    sizes = (4, 4) if single else (request.whole(1)[0], request.whole(3)[0])
    if points is None or len(points) != sizes[0] * sizes[1]:
        return None
    rows = points.reshape(sizes[1], sizes[0], 3)
    around = (False, False) if single else (request.word(2) == "periodic", request.word(4) == "periodic")
    rows = np.swapaxes(chain(np.swapaxes(rows, 0, 1), own.u, own.u_step, around[0]), 0, 1)
    net = chain(rows, own.v, own.v_step, around[1])
    count = ((net.shape[0] + 2) // 3) * ((net.shape[1] + 2) // 3)
    others = {name: it for name, it in held.items() if name not in ("P", "Pw", "Pz")}
    return nets.mesh(work, request, net, others, lambda it: corner_values(it, count, sizes, around, own))


def chain(rows: Floats, matrix: Floats, step: int, periodic: bool) -> Floats:
    """The Bezier points of a spline along the first axis."""
    pieces = len(rows) // step if periodic else (len(rows) - 4) // step + 1
    places = (np.arange(pieces)[:, None] * step + np.arange(4)) % len(rows)
    bezier = np.einsum("ij,pj...->pi...", np.linalg.inv(BASES["bezier"]) @ matrix, rows[places])
    return np.concatenate([bezier[:, :3].reshape(-1, *rows.shape[1:]), bezier[-1:, 3]])


def corner_values(it: variables.Variable, count: int, sizes: Sequence[int], around: Sequence[bool], own: Basis) -> variables.Values:
    """The values at the corners of a mesh's patches, of which a periodic one has none at its end."""
    across, up = (size // step if back else (size - 4) // step + 1 for size, step, back in
                  zip(sizes, (own.u_step, own.v_step), around))
    wide, high = (n if back else n + 1 for n, back in zip((across, up), around))
    if len(it) == wide * high:
        i, j = np.meshgrid(np.arange(across + 1) % wide, np.arange(up + 1) % high)
        return it.taken((j * wide + i).ravel())
    if len(it) == sizes[0] * sizes[1] and not isinstance(it.values, list):
        rows = it.numbers().reshape(sizes[1], sizes[0], -1)
        rows = np.swapaxes(types.along(np.swapaxes(rows, 0, 1), own.u, own.u_step, sizes[0], around[0]), 0, 1)
        rows = types.along(rows, own.v, own.v_step, sizes[1], around[1])
        return rows.reshape(-1, rows.shape[-1])
    return it.taken(np.zeros(count))


def texture_corners(work: Work, request: Request) -> list[Request] | None:
    """Keeps `TextureCoordinates` for the patches and quadrics after it."""
    n = request.numbers()
    if len(n) != 8:
        return None
    work.tell(SAME, request, "`TextureCoordinates` given to the patches and quadrics themselves")
    work.state.set(corners=() if n == [0, 0, 1, 0, 0, 1, 1, 1] else tuple(n))
    return []


def with_corners(work: Work, request: Request) -> list[Request] | None:
    """A patch or quadric with the texture coordinates that are in force."""
    corners = work.state.attributes.corners
    held = work.variables(request, types.start_of(request))
    if not corners or {"s", "t", "st"} & set(held):
        return None
    if request.name in ("PatchMesh", "Polygon", "PointsPolygons"):
        if request.name == "PatchMesh":
            work.tell(NEAR, request, "a mesh without the `TextureCoordinates` in force")
        return None
    return [request.made(request.name, *request.args, "st", np.array(corners))]




PASSES = {"Skew": (skewed,), "Translate": (shifted,), "CoordSysTransform": (to_space,), "ScopedCoordinateSystem": (scoped,), "Orientation": (orientation,),
          "Attribute": (bound,), "SolidBegin": (solid,), "SolidEnd": (solid,), "Basis": (basis,), "TextureCoordinates": (texture_corners,),
          "Transform": (affine,), "ConcatTransform": (affine,)}
