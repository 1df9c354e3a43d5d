"""Meshes of faces in arrays, and one step of Catmull and Clark's subdivision, with creases and corners of any sharpness.

A mesh's faces are a list of corners: the point of each, and the face that it belongs to. All steps are linear in that list.
"""
from __future__ import annotations

from dataclasses import dataclass, replace
from functools import cached_property

import numpy as np
from numpy.typing import NDArray

from .text import Floats, Whole

SHARP = 10.0


def sums(values: Floats, places: Whole, count: int) -> Floats:
    """The sums of rows by their places, of shape (count, ..)."""
    found = np.zeros((count, *values.shape[1:]))
    np.add.at(found, places, values)
    return found


@dataclass(frozen=True)
class Mesh:
    """Points of shape (n, d); corners: their points and the sizes of faces; values of corners; creases as pairs of points with their
    sharpness; the sharpness of points as corners; which face of the first mesh each face is of; and which faces are drawn."""

    points: Floats
    corners: Whole
    sizes: Whole
    values: Floats
    creases: Whole
    sharpness: Floats
    corner_sharpness: Floats
    owners: Whole
    drawn: NDArray[np.bool_]
    boundary: int

    @cached_property
    def faces(self) -> Whole:
        """The face of each corner."""
        return np.repeat(np.arange(len(self.sizes)), self.sizes)

    @cached_property
    def starts(self) -> Whole:
        return np.cumsum(self.sizes) - self.sizes

    @cached_property
    def after(self) -> Whole:
        """The next corner of the same face."""
        found = np.arange(len(self.corners)) + 1
        found[self.starts + self.sizes - 1] = self.starts
        return found

    @cached_property
    def before(self) -> Whole:
        found = np.empty_like(self.after)
        found[self.after] = np.arange(len(self.corners))
        return found

    @cached_property
    def _edges(self) -> tuple[Whole, Whole]:
        low, high = np.minimum(self.corners, self.corners[self.after]), np.maximum(self.corners, self.corners[self.after])
        keys, which = np.unique(low * len(self.points) + high, return_inverse=True)
        return keys, which

    @property
    def edge(self) -> Whole:
        """The edge from each corner to the next."""
        return self._edges[1]

    @cached_property
    def edges(self) -> Whole:
        """The two points of each edge, the lesser first."""
        keys = self._edges[0]
        return np.stack([keys // len(self.points), keys % len(self.points)], axis=1)

    @cached_property
    def edge_faces(self) -> Whole:
        return np.bincount(self.edge, minlength=len(self.edges))

    @cached_property
    def edge_sharpness(self) -> Floats:
        """0 for a smooth edge; edges of one face, or of more than two, are as sharp as can be."""
        found = np.zeros(len(self.edges))
        if len(self.creases):
            keys = self.creases.min(axis=1) * len(self.points) + self.creases.max(axis=1)
            at = np.minimum(np.searchsorted(self._edges[0], keys), len(found) - 1)
            there = self._edges[0][at] == keys
            np.maximum.at(found, at[there], self.sharpness[there])
        found[self.edge_faces != 2] = np.inf
        return found

    @cached_property
    def valence(self) -> Whole:
        """How many edges each point has."""
        return np.bincount(self.edges.ravel(), minlength=len(self.points))

    @cached_property
    def point_faces(self) -> Whole:
        return np.bincount(self.corners, minlength=len(self.points))

    @cached_property
    def sharp_edges(self) -> Whole:
        """How many sharp edges each point has."""
        return np.bincount(self.edges[self.edge_sharpness > 0].ravel(), minlength=len(self.points))

    @cached_property
    def is_corner(self) -> NDArray[np.bool_]:
        """Which points stay where they are."""
        found: NDArray[np.bool_] = (self.sharp_edges > 2) | (self.corner_sharpness > 0)
        if self.boundary == 1:
            found = found | (self.point_faces == 1)
        return found

    def crease_rule(self) -> tuple[Floats, Floats]:
        """For each point the sum of the other ends of its sharp edges, and the mean of their sharpness."""
        sharp = self.edge_sharpness > 0
        pairs, strength = self.edges[sharp], np.minimum(self.edge_sharpness[sharp], SHARP)
        ends = sums(self.points[pairs[:, ::-1].ravel()], pairs.ravel(), len(self.points))
        total = sums(np.repeat(strength, 2), pairs.ravel(), len(self.points))
        return ends, total / np.maximum(self.sharp_edges, 1)

    def is_regular(self) -> bool:
        """Whether bicubic patches of these faces are the surface itself."""
        if (self.sizes != 4).any() or (self.edge_faces > 2).any() or np.isfinite(self.sharpness).any() or (self.corner_sharpness > 0).any():
            return False
        rim = self.sharp_edges > 0
        inner = ~rim & (self.valence == 4) & (self.point_faces == 4)
        side = (self.sharp_edges == 2) & (self.valence == 3) & (self.point_faces == 2)
        corner = (self.point_faces == 1) & (self.boundary == 1)
        return bool((inner | side | corner)[self.corners[self.drawn[self.faces]]].all())


def refined(mesh: Mesh) -> Mesh:
    """One step: each face becomes as many four-sided ones as it has corners."""
    count, faces = len(mesh.points), len(mesh.sizes)
    face_points = sums(mesh.points[mesh.corners], mesh.faces, faces) / mesh.sizes[:, None]
    edge_points = of_edges(mesh, face_points)
    points = np.concatenate([of_points(mesh, face_points), face_points, edge_points])
    on_edge = count + faces + mesh.edge
    corners = np.stack([mesh.corners, on_edge, count + mesh.faces, on_edge[mesh.before]], axis=1).ravel()
    middles = sums(mesh.values, mesh.faces, faces) / mesh.sizes[:, None]
    values = np.stack([mesh.values, (mesh.values + mesh.values[mesh.after]) / 2, middles[mesh.faces],
                       (mesh.values + mesh.values[mesh.before]) / 2], axis=1).reshape(4 * len(mesh.corners), mesh.values.shape[1])
    creased = np.flatnonzero((mesh.edge_sharpness > 1) & (mesh.edge_faces == 2))
    halves = np.stack([mesh.edges[creased].ravel(), np.repeat(creased, 2) + count + faces], axis=1)
    rest = np.zeros(faces + len(edge_points))
    return replace(mesh, points=points, corners=corners, sizes=np.full(len(mesh.corners), 4), values=values, creases=halves,
                   sharpness=np.repeat(mesh.edge_sharpness[creased] - 1, 2),
                   corner_sharpness=np.concatenate([np.maximum(mesh.corner_sharpness - 1, 0), rest]),
                   owners=mesh.owners[mesh.faces], drawn=mesh.drawn[mesh.faces])


def of_edges(mesh: Mesh, face_points: Floats) -> Floats:
    """The new points of edges: of smooth ones the mean of their ends and faces, of sharp ones their middles."""
    ends = mesh.points[mesh.edges].sum(axis=1)
    near = sums(face_points[mesh.faces], mesh.edge, len(mesh.edges))
    smooth = (ends + near) / (2 + mesh.edge_faces)[:, None]
    strength = np.minimum(mesh.edge_sharpness, 1)[:, None]
    found: Floats = smooth + (ends / 2 - smooth) * strength
    return found


def of_points(mesh: Mesh, face_points: Floats) -> Floats:
    """The new places of points by the rules for smooth ones, creases and corners, blended where the sharpness is below 1."""
    p, n = mesh.points, np.maximum(mesh.valence, 1)[:, None]
    around = sums(face_points[mesh.faces], mesh.corners, len(p)) / np.maximum(mesh.point_faces, 1)[:, None]
    middles = p[mesh.edges].sum(axis=1) / 2
    edges = sums(np.repeat(middles, 2, axis=0), mesh.edges.ravel(), len(p)) / n
    smooth = (around + 2 * edges + (n - 3) * p) / n
    ends, strength = mesh.crease_rule()
    crease = (6 * p + ends) / 8
    on_crease = (mesh.sharp_edges == 2)[:, None]
    found = np.where(on_crease, smooth + (crease - smooth) * np.minimum(strength, 1)[:, None], smooth)
    own = np.where((mesh.sharp_edges > 2) | ((mesh.point_faces == 1) & (mesh.boundary == 1)), 1.0, mesh.corner_sharpness)
    stays = np.minimum(np.where(mesh.is_corner, own, 0), 1)[:, None]
    moved: Floats = np.where((mesh.valence == 0)[:, None], p, found + (p - found) * stays)
    return moved
