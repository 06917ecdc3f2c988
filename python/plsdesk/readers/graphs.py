"""Graphs of networkx, where it is installed: nodes of any kind that can be a key of a dictionary."""

from __future__ import annotations

from typing import Any

from plsdesk.builder import NetworkBuilder
from plsdesk.fault import DeskError
from plsdesk.network import Network
from plsdesk.readers.attributes import add_edge, add_node
from plsdesk.readers.options import ReadOptions


def from_networkx(graph: Any, options: ReadOptions = ReadOptions()) -> Network:
    """The network of a graph. A node that is a whole number keeps it where all nodes are; else nodes are numbered.

    A pointer attribute is the neighbour itself. Parallel edges and loops are errors that name the edge.
    """
    builder = NetworkBuilder(options.lightest, options.without_loops)
    for name, attributes in graph.nodes(data=True):
        add_node(builder, name, attributes, f"node {name}", options, lambda target: target)
    for one, other, attributes in graph.edges(data=True):
        add_edge(builder, (one, other), attributes, f"edge {one} - {other}", options)
    return builder.build()


def to_networkx(network: Network) -> Any:
    """The network as an undirected graph of networkx: nodes by their names, with what `from_networkx` reads."""
    try:
        import networkx
    except ImportError as error:
        raise DeskError("networkx is not installed", mend="pip install networkx") from error
    graph = networkx.Graph()
    for node in network.nodes:
        attributes: dict[str, object] = {"mark": node.state.mark, "num": node.state.number}
        target = node.target()
        if target is not None:
            attributes["pointer"] = network.name(target)
        graph.add_node(network.name(node.identity), **attributes)
    graph.add_weighted_edges_from((network.name(one), network.name(other), weight) for one, other, weight in network.edges())
    return graph
