"""What readers of formats with attributes share: an edge or a node with its attributes, told to the builder."""

from __future__ import annotations

from collections.abc import Callable, Hashable, Mapping

from plsdesk.builder import NetworkBuilder
from plsdesk.network import Network, Node
from plsdesk.readers.options import ReadOptions


def add_edge(builder: NetworkBuilder, ends: tuple[Hashable, Hashable], attributes: Mapping[str, object],
             place: str, options: ReadOptions) -> None:
    """An edge with the weight that its attributes say, or of weight 1."""
    builder.attributes["edge"].update(attributes)
    weight = 1 if options.unweighted else attributes.get(options.weight, 1)
    builder.edge(ends[0], ends[1], weight, place)


def add_node(builder: NetworkBuilder, name: Hashable, attributes: Mapping[str, object], place: str, options: ReadOptions,
             name_of: Callable[[object], Hashable] = str) -> None:
    """A node with the state that its attributes say; an empty attribute says nothing.

    `name_of` gives the name of the node that a pointer attribute speaks of.
    """
    builder.node(name, place)
    builder.attributes["node"].update(attributes)
    target = attributes.get(options.pointer, "")
    if target not in ("", None):
        builder.point(name, name_of(target), place)
    for what, attribute in (("mark", options.mark), ("num", options.number)):
        value = attributes.get(attribute, "")
        if value not in ("", None):
            builder.value(name, what, value, place)


def state_attributes(network: Network, node: Node) -> dict[str, str]:
    """The attributes that say a node's state, as texts; what is 0 or none is left out."""
    said: dict[str, str] = {}
    target = node.target()
    if target is not None:
        said["pointer"] = str(network.name(target))
    if node.state.mark:
        said["mark"] = str(node.state.mark)
    if node.state.number:
        said["num"] = str(node.state.number)
    return said
