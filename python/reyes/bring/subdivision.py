"""Subdivision surfaces as bicubic patches (Catmull and Clark's) and as triangles (Loop's).

A face between points of four edges each is a bicubic patch, and that patch is exact. Around other points the patches are those of Loop and
Schaefer's approximation ("Approximating Catmull-Clark subdivision surfaces with bicubic patches", 2008), whose corners are exact, after
some steps of subdivision that make them small.
"""
from __future__ import annotations

from collections.abc import Sequence
from dataclasses import dataclass, replace

import numpy as np

from . import loop, nets, variables
from .changes import LEFT, NEAR, SAME
from .matrices import unit
from .meshes import Mesh, refined, sums
from .text import Floats, Request, Whole
from .variables import Variable
from .work import Work

# The most patches that one surface is refined to.
ROOM = 16384
STEPS = 4
KNOWN_TAGS = ("crease", "corner", "hole", "interpolateboundary", "facevaryinginterpolateboundary", "facevaryingpropagatecorners",
              "smoothtriangles", "creasemethod")


@dataclass(frozen=True)
class Cage:
    """What a request gives: the mesh, whose points hold the variables of points after x, y and z and whose corners hold those of corners;
    the names and widths of these; the other variables."""

    mesh: Mesh
    by_point: Sequence[Variable]
    by_corner: Sequence[Variable]
    others: Sequence[Variable]
    scheme: str


def tags_of(request: Request) -> tuple[int, list[tuple[str, list[int], Floats]]]:
    """Where the list of variables begins, and the tags with their whole numbers and numbers."""
    hierarchical = request.name.startswith("Hier")
    if len(request.args) <= 3 or isinstance(request.args[3], str):
        return 3, []
    names, counts, wholes, numbers = request.strings(3), request.whole(4), request.whole(5), request.array(6)
    step, found, at, after = 3 if hierarchical else 2, [], 0, 0
    for k, name in enumerate(names):
        many, more = counts[step * k], counts[step * k + 1]
        found.append((name, wholes[at:at + many], numbers[after:after + more]))
        at, after = at + many, after + more
    return 8 if hierarchical else 7, found


def creases_of(tags: Sequence[tuple[str, list[int], Floats]], points: int) -> tuple[Whole, Floats, Floats, set[int], int]:
    """Creases with their sharpness, the sharpness of points, the faces that are holes, and how the boundary is drawn."""
    pairs: list[tuple[int, int]] = []
    sharpness: list[float] = []
    corners, holes, boundary = np.zeros(points), set[int](), 0
    for name, wholes, numbers in tags:
        if name == "crease" and len(numbers):
            row = list(zip(wholes, wholes[1:]))
            pairs += row
            own = list(numbers) if len(numbers) == len(row) else [float(numbers[0])] * len(row)
            sharpness += [np.inf if it >= 10 else float(it) for it in own]
        elif name == "corner" and len(numbers):
            for k, it in enumerate(wholes):
                strength = float(numbers[k] if len(numbers) == len(wholes) else numbers[0])
                if 0 <= it < points:
                    corners[it] = np.inf if strength >= 10 else strength
        elif name == "hole":
            holes |= set(wholes)
        elif name == "interpolateboundary":
            boundary = wholes[0] if wholes else 1
    whole = np.array(pairs, dtype=np.int64).reshape(-1, 2)
    fits = ((whole >= 0) & (whole < points)).all(axis=1)
    return whole[fits], np.array(sharpness)[fits], corners, holes, boundary


def cage_of(work: Work, request: Request) -> Cage | None:
    """The cage of a request, or None where its counts don't fit."""
    start, tags = tags_of(request)
    held = work.variables(request, start)
    points, sizes, corners = variables.points_of(held), np.array(request.whole(1)), np.array(request.whole(2))
    if points is None or not len(sizes) or sizes.min() < 3 or sizes.sum() != len(corners) or corners.min() < 0 or corners.max() >= len(points):
        return None
    others = [it for it in held.values() if it.name not in ("P", "Pw") and it.kind.type != "string"]
    by_point = [it for it in others if it.kind.of in ("vertex", "varying") and len(it) == len(points)]
    by_corner = [it for it in others if it.kind.of in ("facevarying", "facevertex") and len(it) == len(corners)]
    rest = [it for it in held.values() if it not in by_point and it not in by_corner and it.name not in ("P", "Pw")]
    creases, sharpness, corner_sharpness, holes, boundary = creases_of(tags, len(points))
    faces = np.repeat(np.arange(len(sizes)), sizes)
    drawn = ~np.isin(np.arange(len(sizes)), list(holes))
    mesh = Mesh(np.concatenate([points, *(it.numbers() for it in by_point)], axis=1), corners, sizes,
                np.concatenate([np.zeros((len(corners), 0)), *(it.numbers() for it in by_corner)], axis=1), creases, sharpness,
                corner_sharpness, np.arange(len(sizes)), drawn, boundary)
    if not any(name == "interpolateboundary" for name, _, _ in tags):
        rim = np.zeros(len(points), dtype=bool)
        rim[mesh.edges[mesh.edge_faces == 1].ravel()] = True
        mesh = replace(mesh, drawn=drawn & (np.bincount(faces, rim[corners], len(sizes)) == 0))
    return Cage(mesh, by_point, by_corner, rest, request.word(0) or "")


def nets_of(mesh: Mesh) -> Floats:
    """The Bezier points of each face of a mesh of four-sided faces: of shape (faces, 4, 4, d), v slowest."""
    p, c = mesh.points, mesh.corners
    rim = mesh.sharp_edges > 0
    n = np.where(mesh.is_corner, 4, np.where(rim & (mesh.valence != mesh.point_faces), 2 * mesh.point_faces, mesh.valence))[c][:, None]
    inner = (n * p[c] + 2 * p[c[mesh.after]] + 2 * p[c[mesh.before]] + p[c[mesh.after[mesh.after]]]) / (n + 5)
    ends, _ = mesh.crease_rule()
    mean = sums(inner, c, len(p)) / np.maximum(mesh.point_faces, 1)[:, None]
    own = np.where(mesh.is_corner[:, None], p, np.where((mesh.sharp_edges == 2)[:, None], (ends + 4 * p) / 6, mean))
    keys = np.concatenate([mesh.edge * 2 + (mesh.edges[mesh.edge, 1] == c), mesh.edge[mesh.before] * 2 + (mesh.edges[mesh.edge[mesh.before], 1] == c)])
    total = sums(np.concatenate([inner, inner]), keys, 2 * len(mesh.edges))
    handles = total / np.maximum(np.bincount(keys, minlength=2 * len(mesh.edges)), 1)[:, None]
    at, to = mesh.edges.ravel(), mesh.edges[:, ::-1].ravel()
    straight = np.repeat(mesh.edge_sharpness > 0, 2) & ((mesh.sharp_edges == 2) | mesh.is_corner)[at]
    handles = np.where(straight[:, None], (2 * p[at] + p[to]) / 3, handles)
    forward, back = handles[keys[:len(c)]].reshape(-1, 4, p.shape[1]), handles[keys[len(c):]].reshape(-1, 4, p.shape[1])
    own, inner = own[c].reshape(forward.shape), inner.reshape(forward.shape)
    rows = [[own[:, 0], forward[:, 0], back[:, 1], own[:, 1]], [back[:, 0], inner[:, 0], inner[:, 1], forward[:, 1]],
            [forward[:, 3], inner[:, 3], inner[:, 2], back[:, 2]], [own[:, 3], back[:, 3], forward[:, 2], own[:, 2]]]
    return np.stack([np.stack(row, axis=1) for row in rows], axis=1)


def in_faces(work: Work, request: Request, cage: Cage) -> list[Request]:
    """A cage of too many faces for patches: its own faces, with points and normals of the surface. After one step each corner of a face is
    the first corner of a four-sided one, whose patch has them."""
    mesh, fine = cage.mesh, refined(cage.mesh)
    nets_ = nets_of(fine)
    own, count = nets_[:, 0, 0], len(mesh.points)
    points = np.zeros((count, own.shape[1]))
    points[mesh.corners] = own
    flat = np.cross(nets_[:, 0, 1, :3] - own[:, :3], nets_[:, 1, 0, :3] - own[:, :3])
    mean = unit(sums(unit(flat), mesh.corners, count))[mesh.corners]
    sharp = (mesh.sharp_edges > 0)[mesh.corners]
    normals = np.where(sharp[:, None], unit(flat), mean)
    shown = mesh.drawn[mesh.faces]
    made = [Variable("P", "P", variables.START["P"], points[:, :3])]
    begin = 3
    for it in cage.by_point:
        made.append(it.of("vertex", points[:, begin:begin + it.kind.width]))
        begin += it.kind.width
    made += [it.of("facevarying", it.taken(np.flatnonzero(shown))) for it in cage.by_corner]
    for it in cage.others:
        every = it.kind.of == "uniform" and len(it) == len(mesh.sizes)
        made.append(it.of("uniform", it.taken(np.flatnonzero(mesh.drawn))) if every else it.of("constant", it.taken([0])))
    if not any(it.name == "N" for it in made):
        made.append(Variable("N", "N", variables.Kind("facevarying", "normal"), normals[shown]))
    sizes = mesh.sizes[mesh.drawn].astype(float)
    return [request.made("PointsPolygons", sizes, mesh.corners[shown].astype(float), *variables.put(made))]


def room_of(work: Work) -> int:
    """How many patches one surface may have."""
    work.refined = True
    return ROOM >> 2 * (3 - work.depth)


def steps_of(work: Work, mesh: Mesh) -> int:
    """How often a mesh is refined: until creases that end have ended, and the patches around odd points are small."""
    finite = np.concatenate([mesh.sharpness[np.isfinite(mesh.sharpness)], mesh.corner_sharpness[np.isfinite(mesh.corner_sharpness)], [0.0]])
    wanted = 0 if mesh.is_regular() else max(2, int(np.ceil(finite.max())))
    least = 1 if (mesh.sizes != 4).any() else 0
    room = room_of(work)
    found = 0
    while found < min(wanted, STEPS) and len(mesh.corners) * 4 ** found <= room:
        found += 1
    return max(found, least)


def patches(work: Work, request: Request, cage: Cage) -> list[Request]:
    """The patches of a cage."""
    mesh = cage.mesh
    for _ in range(steps_of(work, mesh)):
        mesh = refined(mesh)
    nets_, order = nets_of(mesh), [0, 1, 3, 2]
    corner_rows = mesh.values.reshape(len(mesh.sizes), 4, mesh.values.shape[1])[:, order]
    found = []
    for at in np.flatnonzero(mesh.drawn):
        net, held, begin = nets_[at], [], 3
        for it in cage.by_point:
            held.append(it.of("varying", net[[0, 0, 3, 3], [0, 3, 0, 3], begin:begin + it.kind.width]))
            begin += it.kind.width
        begin = 0
        for it in cage.by_corner:
            held.append(it.of("varying", corner_rows[at, :, begin:begin + it.kind.width]))
            begin += it.kind.width
        for it in cage.others:
            own = mesh.owners[at] if it.kind.of == "uniform" and len(it) == len(cage.mesh.sizes) else 0
            held.append(it.of("constant", it.taken([own])))
        points = nets.opened(net[..., :3], 1, 1)
        found.append(request.made("Patch", "bicubic", "P", points.ravel(), *variables.put(held)))
    return nets.in_bezier(work, request, found)


def as_patches(work: Work, request: Request) -> list[Request] | None:
    """A subdivision surface as patches, or as triangles by Loop's rules."""
    cage = cage_of(work, request)
    if cage is None:
        return None
    odd = sorted({name for name, _, _ in tags_of(request)[1]} - set(KNOWN_TAGS))
    if odd and not work.tell(LEFT, request, f"`{request.name}`: tags left out: {' '.join(odd)}"):
        return None
    if "loop" in cage.scheme and (cage.mesh.sizes == 3).all():
        words = f"`{request.name}` of Loop's scheme drawn as triangles of a refined mesh, with its normals"
        return loop.triangles(work, request, cage.mesh, (cage.by_point, cage.by_corner, cage.others)) if work.tell(NEAR, request, words) else None
    if cage.mesh.is_regular():
        work.tell(SAME, request, f"`{request.name}` turned into the bicubic patches that it consists of")
    elif not work.tell(NEAR, request, f"`{request.name}` drawn as bicubic patches, exact but around points of other than four edges and creases"):
        return None
    many = len(cage.mesh.sizes) if (cage.mesh.sizes == 4).all() else len(cage.mesh.corners)
    if many > room_of(work):
        words = f"`{request.name}` of many faces drawn as these faces, with points and normals of the surface"
        return in_faces(work, request, cage) if work.tell(NEAR, request, words) else None
    return patches(work, request, cage)


PASSES = {"SubdivisionMesh": (as_patches,), "HierarchicalSubdivisionMesh": (as_patches,)}
