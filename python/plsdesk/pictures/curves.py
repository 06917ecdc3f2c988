"""How edges run: pointers straight, other edges bent, round other nodes where the picture is small."""

from __future__ import annotations

import math
from typing import NamedTuple

from plsdesk.pictures.layout import COLUMN, RADIUS, Places, Point
from plsdesk.pictures.scene import DrawnEdge

_BENDS = (0.14, -0.14, 0.3, -0.3, 0.5, -0.5)  # of an edge that is no pointer, as shares of its length
_MOST_AVOIDED = 60  # nodes in a picture whose edges go round them


class Curve(NamedTuple):
    """A quadratic curve: its ends, and the point towards which it is bent."""

    start: Point
    bend: Point
    end: Point

    def at(self, share: float) -> Point:
        """The point at this share of the way, 0 at the start and 1 at the end."""
        before, within, behind = (1 - share) ** 2, 2 * share * (1 - share), share**2
        return (behind * self.end[0] + within * self.bend[0] + before * self.start[0],
                behind * self.end[1] + within * self.bend[1] + before * self.start[1])

    def length_bound(self) -> float:
        """A length that the curve does not exceed."""
        return math.dist(self.start, self.bend) + math.dist(self.bend, self.end)


class Outline(NamedTuple):
    """Where a node stands, and half of its width."""

    centre: Point
    half: float

    def border(self, towards: Point) -> Point:
        """The point of the border, or a little outside of it, on the way to another point."""
        x, y = self.centre
        across, down = towards[0] - x, towards[1] - y
        length = math.hypot(across, down) or 1.0
        if self.half == RADIUS:
            share = (RADIUS + 2) / length
        else:
            share = min((self.half + 2) / (abs(across) or 1e-9), (RADIUS + 2) / (abs(down) or 1e-9))
        return x + across * share, y + down * share


def curve_of(edge: DrawnEdge, outlines: dict[int, Outline], bend: Point) -> Curve:
    """The curve of an edge from the border of one end to that of the other."""
    return Curve(outlines[edge.one].border(bend), bend, outlines[edge.other].border(bend))


def bend_of(edge: DrawnEdge, places: Places) -> Point:
    """The point towards which an edge is bent: of a pointer its middle, of another one a point beside it, or below
    it where both ends are in one row."""
    (x, y), (p, q) = places[edge.one], places[edge.other]
    if edge.arrow or edge.back:
        return (x + p) / 2, (y + q) / 2
    length = math.hypot(p - x, q - y) or 1.0
    if abs(y - q) < 1 and length > 1.5 * COLUMN:
        return (x + p) / 2, y + 0.3 * length + 20
    bends = [((x + p) / 2 - (q - y) * bend, (y + q) / 2 + (p - x) * bend) for bend in _BENDS]
    if len(places) > _MOST_AVOIDED:
        return bends[0]
    others = [place for identity, place in places.items() if identity not in (edge.one, edge.other)]
    return next((bend for bend in bends if _is_clear(Curve((x, y), bend, (p, q)), others)), bends[0])


def _is_clear(curve: Curve, others: list[Point]) -> bool:
    """Whether a curve keeps away from all other nodes."""
    points = [curve.at(step / 12) for step in range(1, 12)]
    return all(math.dist(point, other) >= RADIUS + 4 for point in points for other in others)
