"""Pointers made on request: of a BFS tree, a shortest-path tree or a minimum spanning tree of each component."""

from __future__ import annotations

import heapq
from collections.abc import Callable

from plsdesk.fault import DeskError
from plsdesk.network import Network


def components(network: Network) -> list[list[int]]:
    """The identities of each component, rising, in the order of their smallest."""
    nodes = network.by_identity()
    reached: set[int] = set()
    found: list[list[int]] = []
    for identity in nodes:
        if identity in reached:
            continue
        reached.add(identity)
        component = [identity]
        for one in component:
            for port in nodes[one].ports:
                if port.neighbour not in reached:
                    reached.add(port.neighbour)
                    component.append(port.neighbour)
        found.append(sorted(component))
    return found


def _by_distance(network: Network, root: int, weight_of: Callable[[int], int]) -> dict[int, int]:
    """For each node that the root reaches, the node before it on a shortest way; of several the one found first."""
    nodes = network.by_identity()
    distances = {root: 0}
    before: dict[int, int] = {}
    waiting = [(0, root)]
    settled: set[int] = set()
    while waiting:
        distance, one = heapq.heappop(waiting)
        if one in settled:
            continue
        settled.add(one)
        for neighbour, weight in nodes[one].ports:
            further = distance + weight_of(weight)
            if neighbour not in settled and further < distances.get(neighbour, further + 1):
                distances[neighbour] = further
                before[neighbour] = one
                heapq.heappush(waiting, (further, neighbour))
    return before


def _lightest(network: Network, root: int) -> dict[int, int]:
    """For each node that the root reaches, the node before it in a minimum spanning tree (Prim)."""
    nodes = network.by_identity()
    before: dict[int, int] = {}
    joined: set[int] = set()
    waiting = [(0, root, root)]
    while waiting:
        _, one, parent = heapq.heappop(waiting)
        if one in joined:
            continue
        joined.add(one)
        before[one] = parent
        for neighbour, weight in nodes[one].ports:
            if neighbour not in joined:
                heapq.heappush(waiting, (weight, neighbour, one))
    del before[root]
    return before


TREES: dict[str, Callable[[Network, int], dict[int, int]]] = {
    "bfs": lambda network, root: _by_distance(network, root, lambda _: 1),
    "spt": lambda network, root: _by_distance(network, root, lambda weight: weight),
    "mst": _lightest,
}


def point_along(network: Network, kind: str, roots: list[int]) -> None:
    """Has the nodes of each component point along a tree of this kind, to its root.

    A component has the root that is given in it, else its smallest node; two roots in one are an error.
    """
    nodes = network.by_identity()
    for component in components(network):
        inside = set(component)
        given = [root for root in roots if root in inside]
        if len(given) > 1:
            raise DeskError(f"the nodes {network.name(given[0])} and {network.name(given[1])} are in one component, which has one root")
        root = given[0] if given else component[0]
        nodes[root].state.pointer = None
        for identity, parent in TREES[kind](network, root).items():
            nodes[identity].state.pointer = nodes[identity].port_to(parent)
