"""Where the words of a node stand: below it, or elsewhere around it where something is in their way there."""

from __future__ import annotations

import math
from collections.abc import Iterator
from itertools import product
from typing import NamedTuple

from plsdesk.pictures.curves import Curve, Outline
from plsdesk.pictures.layout import RADIUS, Point
from plsdesk.pictures.scene import Scene

_LETTER = 5.2  # width of a letter of 11 pixels, a little above the mean of Helvetica
_STEP = 8.0  # from a point of an edge to the next, less than the height of words
_LINE, _ARROW = 2.5, 7.0  # halves of the widths of an edge and of its arrowhead, with a little room
_CELL = 48.0
_MOST_POINTS = 100_000  # of the edges of a picture whose words keep off them

_Owner = int | tuple[int, ...]  # a node, or an edge by its ends, or an arrowhead of it


class Rectangle(NamedTuple):
    """A part of a picture."""

    left: float
    top: float
    right: float
    bottom: float

    def meets(self, other: Rectangle) -> bool:
        """Whether a point is inside of both."""
        return self.left < other.right and other.left < self.right and self.top < other.bottom and other.top < self.bottom

    def cells(self) -> Iterator[tuple[int, int]]:
        """The cells of the picture that have a part of it."""
        columns = range(int(self.left // _CELL), int(self.right // _CELL) + 1)
        return product(columns, range(int(self.top // _CELL), int(self.bottom // _CELL) + 1))


class Spot(NamedTuple):
    """Where words stand: a point of their line, whether it is its `start`, `middle` or `end`, and the box that they fill."""

    point: Point
    anchor: str
    box: Rectangle


class _Obstacles:
    """Rectangles by the cells that they are in, of all cells that words can reach: a box is compared with those near it alone."""

    def __init__(self, boxes: list[Rectangle]) -> None:
        self._cells: dict[tuple[int, int], list[tuple[_Owner, Rectangle]]] = {cell: [] for box in boxes for cell in box.cells()}

    def is_near(self, point: Point) -> bool:
        """Whether words can reach the cell of a point."""
        return (int(point[0] // _CELL), int(point[1] // _CELL)) in self._cells

    def add(self, owner: _Owner, rectangle: Rectangle) -> None:
        for cell in rectangle.cells():
            if cell in self._cells:
                self._cells[cell].append((owner, rectangle))

    def crossings(self, box: Rectangle, own: int) -> int:
        """How many owners have something in a box, besides the node whose words they are."""
        near = (one for cell in box.cells() for one in self._cells[cell])
        return len({owner for owner, rectangle in near if owner != own and rectangle.meets(box)})


def spots_of(scene: Scene, outlines: dict[int, Outline], curves: list[Curve], sides: tuple[float, float]) -> dict[int, Spot]:
    """The spots of all nodes that have words, in a picture that reaches from one of `sides` to the other.

    Of the spots around a node the best has the fewest other nodes and texts in it, then the fewest edges through it and nodes
    next to it, then is inside of the picture; of equals it is the first.
    """
    choices = {node.identity: _around(outlines[node.identity], node.words) for node in scene.nodes if node.words}
    if sum(curve.length_bound() for curve in curves) > _MOST_POINTS * _STEP:
        return {one: around[0] for one, around in choices.items()}
    boxes = [spot.box for around in choices.values() for spot in around]
    shapes, lines = _Obstacles(boxes), _Obstacles(boxes)
    if boxes:
        _add_nodes(shapes, lines, outlines)
        _add_edges(shapes, lines, scene, curves)
    spots: dict[int, Spot] = {}
    for one, around in choices.items():
        spots[one] = min(around, key=lambda spot: (shapes.crossings(spot.box, one), lines.crossings(spot.box, one), _leaves(spot.box, sides)))
        shapes.add(one, spots[one].box)
    return spots


def _leaves(box: Rectangle, sides: tuple[float, float]) -> bool:
    return box.left < sides[0] or box.right > sides[1]


def _around(outline: Outline, words: str) -> list[Spot]:
    """The spots around a node, the first of which is below it."""
    (x, y), half = outline
    below, level, above = y + RADIUS + 12, y + 4, y - RADIUS - 6
    points = [(x, below, "middle"), (x + half + 4, level, "start"), (x - half - 4, level, "end"), (x, above, "middle"),
              (x + half / 2, below, "start"), (x - half / 2, below, "end"), (x + half / 2, above, "start"), (x - half / 2, above, "end")]
    return [_spot(*point, _LETTER * len(words)) for point in points]


def _spot(x: float, y: float, anchor: str, width: float) -> Spot:
    left = x - width * {"start": 0.0, "middle": 0.5, "end": 1.0}[anchor]
    return Spot((x, y), anchor, Rectangle(left, y - 9, left + width, y + 3))


def _add_nodes(shapes: _Obstacles, lines: _Obstacles, outlines: dict[int, Outline]) -> None:
    """Nodes become shapes, and the room around them, in which words would seem to be theirs, lines."""
    for one, (centre, half) in outlines.items():
        shapes.add(one, _rectangle(centre, half + 2, RADIUS + 2))
        lines.add(one, _rectangle(centre, half + 3, RADIUS + 8))


def _add_edges(shapes: _Obstacles, lines: _Obstacles, scene: Scene, curves: list[Curve]) -> None:
    """Weights become shapes, and points of the edges and their arrowheads lines; an arrowhead counts besides its edge."""
    has_weights = scene.has_weights()
    for edge, curve in zip(scene.edges, curves):
        ends = (edge.one, edge.other)
        pieces = math.ceil(curve.length_bound() / _STEP) or 1
        points = [curve.at(piece / pieces) for piece in range(pieces + 1)]
        for point in points:
            if lines.is_near(point):
                lines.add(ends, _rectangle(point, _LINE, _LINE))
        for place in [1] * edge.back + [-2] * edge.arrow:
            lines.add((*ends, place), _rectangle(points[place], _ARROW, _ARROW))
        if has_weights:
            shapes.add(ends, _rectangle(curve.at(0.5), 3.0 * len(str(edge.weight)) + 2, 7.0))


def _rectangle(centre: Point, across: float, down: float) -> Rectangle:
    x, y = centre
    return Rectangle(x - across, y - down, x + across, y + down)
