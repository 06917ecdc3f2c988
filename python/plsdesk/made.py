"""Networks of any size: paths, hubs, grids and rings, with pointers towards node 1. All edges weigh 1."""

from __future__ import annotations

import math
from collections.abc import Callable

from plsdesk.fault import DeskError
from plsdesk.limits import MOST_NODES
from plsdesk.network import Network, Node, Port, State, decimal


def _path(count: int, one: int) -> tuple[list[int], int]:
    """Each node is joined to the one before it, at which it points, and to the one behind it."""
    return [other for other in (one - 1, one + 1) if 1 <= other <= count], one - 1


def _hub(count: int, one: int) -> tuple[list[int], int]:
    """All nodes are joined to node 1, and point at it."""
    return ([1], 1) if one > 1 else (list(range(2, count + 1)), 0)


def _grid(count: int, one: int) -> tuple[list[int], int]:
    """Rows of a square; each node points left, and the leftmost up."""
    side = math.isqrt(count)
    row, column = divmod(one - 1, side)
    sides = ((row > 0, one - side), (column > 0, one - 1), (column < side - 1, one + 1), (row < side - 1, one + side))
    return [other for inside, other in sides if inside], one - 1 if column else one - side


def _ring(count: int, one: int) -> tuple[list[int], int]:
    """Each node is joined to the four before it and the four behind it, and points at the one before it."""
    return sorted((one + step - 1) % count + 1 for step in range(-4, 5) if step), one - 1


# how the neighbours of a node and the one that it points at are found; node 1 points at nothing
KINDS: dict[str, Callable[[int, int], tuple[list[int], int]]] = {"path": _path, "hub": _hub, "grid": _grid, "ring": _ring}


def made(asked: str) -> Network:
    """The network of a kind and a number of nodes, as `grid:100`."""
    kind, _, digits = asked.partition(":")
    count = decimal(digits, MOST_NODES)
    if kind not in KINDS or not count:
        raise DeskError(f"`{asked}` is no KIND:NODES", mend=f"KIND is {', '.join(KINDS)}, and there are 1 to {MOST_NODES} nodes")
    if kind == "grid" and math.isqrt(count) ** 2 != count:
        raise DeskError(f"a grid is a square, and {count} is none")
    if kind == "ring" and count < 10:
        raise DeskError("a ring has 10 nodes at least")
    nodes: list[Node] = []
    for one in range(1, count + 1):
        neighbours, target = KINDS[kind](count, one)
        pointer = neighbours.index(target) if one > 1 else None
        nodes.append(Node(one, State(pointer), [Port(other, 1) for other in neighbours]))
    return Network(nodes)
