"""Where nodes stand in a picture: trees by their levels, in rows or rings; else by a spring layout, or in a circle.

Places are in pixels, from the upper left corner.
"""

from __future__ import annotations

import math
from typing import Any

from plsdesk.network import Network, Node
from plsdesk.pictures.scene import Scene
from plsdesk.readers.graphs import to_networkx

Point = tuple[float, float]
Places = dict[int, Point]

RADIUS = 17.0  # of a node; half of the height of one whose name is long
COLUMN = 60.0  # between two leaves of a tree, or more where names are long
ROW = 96.0  # between two levels
MOST_COLUMNS = 18  # leaves in rows; with more of them the levels are rings
MARGIN = 48.0


def half_width(name: str) -> float:
    """Half of the width of a node that has this name in it."""
    return RADIUS if len(name) <= 4 else 3.4 * len(name) + 10


def places_of(scene: Scene) -> Places:
    """The places of all nodes of a scene, its components side by side."""
    nodes = scene.network.by_identity()
    widest = max(half_width(node.name) for node in scene.nodes)
    places: Places = {}
    left = MARGIN + widest
    for component in scene.components:
        part = _component([nodes[one] for one in component], max(COLUMN, 2 * widest + 16))
        low_x, low_y = (min(point[axis] for point in part.values()) for axis in (0, 1))
        for identity, (x, y) in part.items():
            places[identity] = (x - low_x + left, y - low_y + MARGIN)
        left = max(places[one][0] for one in part) + 2 * (MARGIN + widest)
    return places


def _component(nodes: list[Node], column: float) -> Places:
    children = _forest(nodes)
    if children is not None:
        return _levels(children, column)
    return _spring(nodes, column) or _circle([node.identity for node in nodes], column)


def _forest(nodes: list[Node]) -> dict[int | None, list[int]] | None:
    """The children of each node along the pointers, and below None the roots; None where no pointers make a tree."""
    inside = {node.identity for node in nodes}
    children: dict[int | None, list[int]] = {None: []}
    for node in nodes:
        target = node.target()
        children.setdefault(target if target in inside else None, []).append(node.identity)
    reached = list(children[None])
    for one in reached:
        reached.extend(children.get(one, ()))
    pointless = len(nodes) > 1 and len(children[None]) == len(nodes)
    return children if len(reached) == len(nodes) and not pointless else None


def _levels(children: dict[int | None, list[int]], width: float) -> Places:
    """Columns by leaves and rows by depth, or the same bent to rings where there are many leaves."""
    columns: Places = {}
    leaves = 0
    order: list[tuple[int, int]] = [(root, 0) for root in reversed(children[None])]
    stack = [(one, depth, False) for one, depth in order]
    while stack:
        one, depth, done = stack.pop()
        below = children.get(one, [])
        if not below:
            columns[one] = (leaves, depth)
            leaves += 1
        elif done:
            columns[one] = ((columns[below[0]][0] + columns[below[-1]][0]) / 2, depth)
        else:
            stack.append((one, depth, True))
            stack.extend((child, depth + 1, False) for child in reversed(below))
    if leaves <= MOST_COLUMNS:
        return {one: (column * width, depth * ROW) for one, (column, depth) in columns.items()}
    return _rings(columns, leaves, len(children[None]) > 1, width)


def _rings(columns: Places, leaves: int, several: bool, width: float) -> Places:
    """Depths as rings, each so wide that neighbours in it have room; a root alone is in the middle."""
    rings: dict[float, list[float]] = {}
    for column, depth in columns.values():
        rings.setdefault(depth, []).append(column)
    radii: dict[float, float] = {}
    radius = 0.0 if several else -ROW
    for depth, along in sorted(rings.items()):
        along.sort()
        gap = min(right - left for left, right in zip(along, [*along[1:], along[0] + leaves]))
        room = width * leaves / (2 * math.pi * gap) if len(along) > 1 else 0.0
        radii[depth] = radius = max(radius + ROW, room)
    angles = {one: 2 * math.pi * column / leaves for one, (column, _) in columns.items()}
    return {one: (radii[depth] * math.cos(angles[one]), radii[depth] * math.sin(angles[one])) for one, (_, depth) in columns.items()}


def _spring(nodes: list[Node], column: float) -> Places | None:
    """The spring layout of networkx where it is installed with what it needs, else None."""
    inside = {node.identity for node in nodes}
    part = Network([Node(node.identity, node.state, [port for port in node.ports if port.neighbour in inside]) for node in nodes])
    side = column * max(2.0, 1.4 * math.sqrt(len(nodes)))
    try:
        import numpy
        import networkx
        found: dict[Any, Any] = networkx.spring_layout(to_networkx(part), seed=1)
    except ImportError:
        return None
    del numpy
    return {one: (float(x) * side / 2, float(y) * side / 2) for one, (x, y) in found.items()}


def _circle(identities: list[int], column: float) -> Places:
    radius = max(ROW, len(identities) * column / (2 * math.pi)) if len(identities) > 1 else 0.0
    return {one: (radius * math.sin(2 * math.pi * place / len(identities)), -radius * math.cos(2 * math.pi * place / len(identities)))
            for place, one in enumerate(identities)}
