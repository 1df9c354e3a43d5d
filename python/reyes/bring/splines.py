"""B-splines in one and two directions, with weights: points, derivatives and twists by the functions that count at each parameter."""
from __future__ import annotations

from dataclasses import dataclass

import numpy as np

from .matrices import unit
from .text import Floats, Whole


@dataclass(frozen=True)
class Side:
    """One direction of a surface: its number of points, order and knots, and the part of the parameter that is drawn."""

    count: int
    order: int
    knots: Floats
    low: float
    high: float

    def breaks(self) -> Floats:
        """The ends of the spans that are drawn."""
        inner = self.knots[(self.knots > self.low) & (self.knots < self.high)]
        found: Floats = np.unique(np.concatenate([[self.low], inner, [self.high]]))
        return found

    def spans(self, t: Floats) -> Whole:
        """The span of knots in which each parameter lies."""
        found: Whole = np.searchsorted(self.knots[self.order:self.count], t, side="right") + self.order - 1
        return found

    def basis(self, t: Floats, spans: Whole) -> tuple[Whole, Floats, Floats]:
        """The places of the points that count at each parameter, with their weights and the slopes of these: of shape (n, order)."""
        rows, slopes = np.ones((len(t), 1)), np.zeros((len(t), 1))
        for degree in range(1, self.order):
            new, slopes = np.zeros((len(t), degree + 1)), np.zeros((len(t), degree + 1))
            for r in range(degree):
                high, low = self.knots[spans + r + 1], self.knots[spans + r + 1 - degree]
                width = high - low
                part = np.divide(rows[:, r], width, out=np.zeros(len(t)), where=width != 0)
                new[:, r] += (high - t) * part
                new[:, r + 1] += (t - low) * part
                slopes[:, r] -= degree * part
                slopes[:, r + 1] += degree * part
            rows = new
        places = spans[:, None] - self.order + 1 + np.arange(self.order)
        return places, rows, slopes


@dataclass(frozen=True)
class Surface:
    """Control points of shape (v count, u count, 4), homogeneous, and both directions."""

    u: Side
    v: Side
    points: Floats

    def is_exact(self) -> bool:
        """Whether bicubic patches hold the surface itself."""
        w = self.points[..., 3]
        return self.u.order <= 4 and self.v.order <= 4 and bool(np.allclose(w, w.flat[0], rtol=1e-9))

    def at(self, u: tuple[Floats, Whole], v: tuple[Floats, Whole]) -> tuple[Floats, Floats, Floats, Floats]:
        """Points, both derivatives and the twist at all pairs of parameters, each with its span: of shape (v, u, 3) each."""
        parts = []
        places_u, *rows_u = self.u.basis(*u)
        places_v, *rows_v = self.v.basis(*v)
        for row_v in rows_v:
            for row_u in rows_u:
                along = np.einsum("uk,jukw->juw", row_u, self.points[:, places_u])
                parts.append(np.einsum("vk,vkuw->vuw", row_v, along[places_v]))
        a, a_u, a_v, a_uv = parts
        w = np.where(a[..., 3:] == 0, 1.0, a[..., 3:])
        s = a[..., :3] / w
        s_u, s_v = (a_u[..., :3] - a_u[..., 3:] * s) / w, (a_v[..., :3] - a_v[..., 3:] * s) / w
        s_uv = (a_uv[..., :3] - a_u[..., 3:] * s_v - a_v[..., 3:] * s_u - a_uv[..., 3:] * s) / w
        return s, s_u, s_v, s_uv

    def at_points(self, u: Floats, v: Floats) -> tuple[Floats, Floats]:
        """Points and unit normals at n pairs of parameters: of shape (n, 3) each."""
        places_u, rows_u, slopes_u = self.u.basis(u, self.u.spans(u))
        places_v, rows_v, slopes_v = self.v.basis(v, self.v.spans(v))
        held = self.points[places_v[:, :, None], places_u[:, None, :]]
        a, a_u, a_v = (np.einsum("nj,ni,njiw->nw", y, x, held) for y, x in ((rows_v, rows_u), (rows_v, slopes_u), (slopes_v, rows_u)))
        w = np.where(a[:, 3:] == 0, 1.0, a[:, 3:])
        s = a[:, :3] / w
        normals = np.cross((a_u[:, :3] - a_u[:, 3:] * s) / w, (a_v[:, :3] - a_v[:, 3:] * s) / w)
        return s, unit(normals)
