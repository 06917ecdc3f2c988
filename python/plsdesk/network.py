"""Networks as `pls` has them: nodes in rising order of their identities, each with a state and ports."""

from __future__ import annotations

from collections.abc import Hashable, Mapping
from dataclasses import dataclass, field
from typing import NamedTuple

from plsdesk.fault import DeskError
from plsdesk.limits import MOST_NUMBER, MOST_WORD


class Port(NamedTuple):
    """One end of an edge: the identity at the other end, and the weight of the edge."""

    neighbour: int
    weight: int


@dataclass(slots=True)
class State:
    """A node's state: the number of the port that it points at, counted from 0, or None; its mark; its number."""

    pointer: int | None = None
    mark: int = 0
    number: int = 0

    def words(self) -> str:
        """The state as `pls` writes it behind an identity."""
        return f"{'-' if self.pointer is None else self.pointer} {self.mark} {self.number}"


@dataclass(slots=True)
class Node:
    """A node: its identity, its state and its ports in their order."""

    identity: int
    state: State
    ports: list[Port] = field(default_factory=list)

    def target(self) -> int | None:
        """The identity of the node that it points at; None where it points nowhere or at no port that it has."""
        pointer = self.state.pointer
        return self.ports[pointer].neighbour if pointer is not None and pointer < len(self.ports) else None

    def port_to(self, neighbour: int) -> int | None:
        """The number of the first port that leads to a node, or None."""
        return next((place for place, port in enumerate(self.ports) if port.neighbour == neighbour), None)


@dataclass(slots=True)
class Network:
    """A network, and the names that its nodes have elsewhere; a node without a name is called by its identity."""

    nodes: list[Node]
    names: dict[int, Hashable] = field(default_factory=dict)
    _known: dict[str, int] | None = field(default=None, repr=False, compare=False)

    def with_names(self, names: Mapping[int, Hashable]) -> "Network":
        """The same nodes with these names."""
        return Network(self.nodes, dict(names))

    def name(self, identity: int) -> Hashable:
        """What a node is called: its name, or its identity where it has none."""
        return self.names.get(identity, identity)

    def by_identity(self) -> dict[int, Node]:
        """The nodes by their identities."""
        return {node.identity: node for node in self.nodes}

    def edges(self) -> list[tuple[int, int, int]]:
        """Each edge once, from its smaller end: the two identities and the weight."""
        return [(node.identity, port.neighbour, port.weight)
                for node in self.nodes for port in node.ports if node.identity < port.neighbour]

    def text(self) -> str:
        """The network part that `pls` reads."""
        lines = ["network"]
        for node in self.nodes:
            lines.append(f"node {node.identity} {node.state.words()}")
            lines.extend(f"port {neighbour} {weight}" for neighbour, weight in node.ports)
        lines.append("end\n")
        return "\n".join(lines)

    def identity_of(self, name: Hashable) -> int:
        """The identity of the node of this name, or, where no node has the name, of this identity."""
        if self._known is None:
            identities = {str(node.identity): node.identity for node in self.nodes}
            self._known = identities | {str(name): identity for identity, name in self.names.items()}
        if str(name) not in self._known:
            raise DeskError(f"the network has no node {name}")
        return self._known[str(name)]


def decimal(word: str, most: int) -> int | None:
    """The number that a word spells in decimal without a leading zero, or None where it is none or above `most`."""
    if not (word.isascii() and word.isdecimal()) or (word[0] == "0" and word != "0"):
        return None
    number = int(word)
    return number if number <= most else None


def parse_network(text: str) -> Network:
    """The network of a text whose first part is a network part, as `pls` writes and reads it.

    What stands behind the part is passed over. That the ports fit together is left to `pls`.
    """
    nodes: list[Node] = []
    lines = text.split("\n")
    if not lines or lines[0] != "network":
        raise DeskError("a network part begins with the line `network`", "line 1")
    for place, line in enumerate(lines[1:], start=2):
        words = line.split(" ")
        if line == "end":
            return Network(nodes)
        if words[0] == "port" and nodes and len(words) == 3:
            neighbour, weight = decimal(words[1], MOST_WORD), decimal(words[2], MOST_WORD)
            if neighbour is not None and weight is not None:
                nodes[-1].ports.append(Port(neighbour, weight))
                continue
        elif words[0] == "node" and len(words) == 5:
            node = _node_of(words)
            if node is not None:
                nodes.append(node)
                continue
        raise DeskError("this is no line of a network part", f"line {place}")
    raise DeskError("the network part has no line `end`", f"line {len(lines)}")


def _node_of(words: list[str]) -> Node | None:
    identity = decimal(words[1], MOST_WORD)
    pointer = None if words[2] == "-" else decimal(words[2], MOST_WORD)
    mark, number = decimal(words[3], MOST_WORD), decimal(words[4], MOST_NUMBER)
    if identity is None or mark is None or number is None or (pointer is None and words[2] != "-"):
        return None
    return Node(identity, State(pointer, mark, number))
