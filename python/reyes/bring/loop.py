"""Loop's subdivision of triangles: refined some steps, then moved to the surface's own points, with its normals there."""
from __future__ import annotations

from collections.abc import Sequence
from dataclasses import replace

import numpy as np

from . import variables
from .matrices import unit
from .meshes import Mesh, sums
from .text import Floats, Request, Whole
from .variables import Kind, Variable
from .work import Work

ROOM = 32768


def weight(valence: Whole) -> Floats:
    """How much each neighbour of a smooth point counts in a step."""
    n = np.maximum(valence, 3).astype(float)
    found: Floats = (5 / 8 - (3 / 8 + np.cos(2 * np.pi / n) / 4) ** 2) / n
    return found


def neighbours(mesh: Mesh) -> Floats:
    """The sum of each point's neighbours."""
    return sums(mesh.points[mesh.edges[:, ::-1].ravel()], mesh.edges.ravel(), len(mesh.points))


def moved(mesh: Mesh, smooth: Floats, crease: Floats) -> Floats:
    """Points that are smooth, on a crease, or stay."""
    found = np.where((mesh.sharp_edges == 2)[:, None], crease, smooth)
    stays = mesh.is_corner | (mesh.valence == 0)
    return np.where(stays[:, None], mesh.points, found)


def refined(mesh: Mesh) -> Mesh:
    """One step: each triangle becomes four."""
    p, count = mesh.points, len(mesh.points)
    b = weight(mesh.valence)[:, None]
    ends, _ = mesh.crease_rule()
    points = moved(mesh, p * (1 - mesh.valence[:, None] * b) + b * neighbours(mesh), p * 3 / 4 + ends / 8)
    pair = p[mesh.edges].sum(axis=1)
    opposite = sums(p[mesh.corners[mesh.before]], mesh.edge, len(mesh.edges))
    on_edges = np.where((mesh.edge_sharpness > 0)[:, None], pair / 2, pair * 3 / 8 + opposite / 8)
    c, e = mesh.corners.reshape(-1, 3), count + mesh.edge.reshape(-1, 3)
    corners = np.stack([c[:, 0], e[:, 0], e[:, 2], e[:, 0], c[:, 1], e[:, 1], e[:, 2], e[:, 1], c[:, 2], e[:, 0], e[:, 1], e[:, 2]], axis=1)
    shape = (len(c), 3, mesh.values.shape[1])
    v, w = mesh.values.reshape(shape), (mesh.values + mesh.values[mesh.after]).reshape(shape) / 2
    values = np.stack([v[:, 0], w[:, 0], w[:, 2], w[:, 0], v[:, 1], w[:, 1], w[:, 2], w[:, 1], v[:, 2], w[:, 0], w[:, 1], w[:, 2]], axis=1)
    sharp = np.flatnonzero((mesh.edge_sharpness > 1) & (mesh.edge_faces == 2))
    halves = np.stack([mesh.edges[sharp].ravel(), np.repeat(sharp, 2) + count], axis=1)
    four = np.repeat(np.arange(len(c)), 4)
    return replace(mesh, points=np.concatenate([points, on_edges]), corners=corners.ravel(), sizes=np.full(len(four), 3),
                   values=values.reshape(3 * len(four), mesh.values.shape[1]), creases=halves, sharpness=np.repeat(mesh.edge_sharpness[sharp] - 1, 2),
                   corner_sharpness=np.concatenate([np.maximum(mesh.corner_sharpness - 1, 0), np.zeros(len(on_edges))]),
                   owners=mesh.owners[four], drawn=mesh.drawn[four])


def limit(mesh: Mesh) -> Floats:
    """The surface's own points."""
    n = mesh.valence[:, None]
    b = 1 / (3 / (8 * weight(mesh.valence)[:, None]) + n)
    ends, _ = mesh.crease_rule()
    return moved(mesh, mesh.points * (1 - n * b) + b * neighbours(mesh), (4 * mesh.points + ends) / 6)


def normals(mesh: Mesh, points: Floats) -> Floats:
    """For each corner of the triangles the normal there: the mean of the faces around the point, within 60 degrees of its own face."""
    a, b, c = (points[mesh.corners[k::3]] for k in range(3))
    faces = np.cross(b - a, c - a)
    mean = unit(sums(np.repeat(faces, 3, axis=0), mesh.corners, len(points)))[mesh.corners]
    own = np.repeat(unit(faces), 3, axis=0)
    near = (own * mean).sum(axis=1) > 0.5
    return np.where(near[:, None], mean, own)


def triangles(work: Work, request: Request, mesh: Mesh, held: tuple[Sequence[Variable], Sequence[Variable], Sequence[Variable]]) -> list[Request]:
    """The triangles of a mesh after three steps, or as many as there is room for, with variables of points, of corners and others."""
    by_point, by_corner, others = held
    first = len(mesh.sizes)
    work.refined = True
    for _ in range(3):
        if len(mesh.sizes) * 4 <= ROOM >> 2 * (3 - work.depth):
            mesh = refined(mesh)
    points = limit(mesh)
    shown = np.repeat(mesh.drawn, 3)
    made = [Variable("P", "P", variables.START["P"], points[:, :3])]
    at = 3
    for it in by_point:
        made.append(it.of("vertex", points[:, at:at + it.kind.width]))
        at += it.kind.width
    at = 0
    for it in by_corner:
        made.append(it.of("facevarying", mesh.values[shown, at:at + it.kind.width]))
        at += it.kind.width
    for it in others:
        every = it.kind.of == "uniform" and len(it) == first
        made.append(it.of("uniform", it.taken(mesh.owners[mesh.drawn])) if every else it.of("constant", it.taken([0])))
    if not any(it.name == "N" for it in made):
        made.append(Variable("N", "N", Kind("facevarying", "normal"), normals(mesh, points[:, :3])[shown]))
    counts = np.full(int(mesh.drawn.sum()), 3.0)
    return [request.made("PointsPolygons", counts, mesh.corners[shown].astype(float), *variables.put(made))]
