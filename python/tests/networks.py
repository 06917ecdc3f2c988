"""All connected networks of up to four nodes, as the components of one network."""

from __future__ import annotations

from collections.abc import Iterator
from functools import cache
from itertools import combinations

from plsdesk.network import Network, Node, Port, State
from plsdesk.trees import components, point_along

MOST = 4
Edges = tuple[tuple[int, int], ...]


def connected_graphs() -> Iterator[tuple[int, Edges]]:
    """The number of nodes and the edges of each connected graph on the nodes 0 to 3 or fewer."""
    for count in range(1, MOST + 1):
        pairs = list(combinations(range(count), 2))
        for many in range(len(pairs) + 1):
            for edges in combinations(pairs, many):
                reached = {0}
                for _ in range(count):
                    reached |= {other for pair in edges if reached & set(pair) for other in pair}
                if len(reached) == count:
                    yield count, edges


@cache
def small_networks(tree: str) -> Network:
    """Each connected graph with each of its nodes as the root and two choices of weights, pointing along trees of
    this kind; the root has mark 1, and each node the number of nodes in its component."""
    nodes: list[Node] = []
    roots: list[int] = []
    for count, edges in connected_graphs():
        for root in range(count):
            for weights in ([1] * len(edges), [(place * 5 + 3) % 7 for place in range(len(edges))]):
                first = nodes[-1].identity + 2 if nodes else 1
                rows = [Node(first + 3 * place, State(None, int(place == root), count)) for place in range(count)]
                for place, (one, other) in enumerate(edges):
                    rows[one].ports.append(Port(rows[other].identity, weights[place]))
                    rows[other].ports.append(Port(rows[one].identity, weights[place]))
                nodes.extend(rows)
                roots.append(rows[root].identity)
    network = Network(nodes)
    point_along(network, tree, roots)
    return network


def without(network: Network, names: set[int]) -> Network:
    """A network without the components of these names."""
    gone = {one for component in components(network) if component[0] in names for one in component}
    return Network([node for node in network.nodes if node.identity not in gone])
