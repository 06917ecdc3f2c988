"""Adjacency lists: a line a node, its name and then its neighbours. They have neither weights nor states."""

from __future__ import annotations

from plsdesk.builder import NetworkBuilder
from plsdesk.fault import DeskError
from plsdesk.network import Network, State
from plsdesk.readers.edges import check_words, plain_name
from plsdesk.readers.options import ReadOptions


def read(text: str, builder: NetworkBuilder, options: ReadOptions) -> None:
    """Tells a builder all that an adjacency list says. An edge may stand at one of its ends or at both."""
    del options  # no attribute stands in an adjacency list
    for number, line in enumerate(text.splitlines(), start=1):
        words = line.partition("#")[0].split()
        place = f"line {number}"
        if not words:
            continue
        check_words(words, place)
        builder.node(words[0], place)
        for neighbour in words[1:]:
            builder.edge(words[0], neighbour, 1, place)


def write(network: Network) -> str:
    """The adjacency list of a network, each edge once; weights other than 1 and states are refused."""
    lines: list[str] = []
    for one, other, weight in network.edges():
        if weight != 1:
            raise DeskError(f"an adjacency list has no weights, and this edge has {weight}",
                            f"edge {network.name(one)} - {network.name(other)}", "write edges, gml, graphml, dot or csv")
    for node in network.nodes:
        if node.state != State():
            raise DeskError("an adjacency list has no states", f"node {network.name(node.identity)}",
                            "write edges, gml, graphml, dot or csv")
        later = [plain_name(network, port.neighbour) for port in node.ports if port.neighbour > node.identity]
        lines.append(" ".join([plain_name(network, node.identity), *later]))
    return "\n".join(lines) + "\n"
