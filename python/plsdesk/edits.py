"""A network and its labels under edits, as `recheck` makes them. An edit that does not apply is an error."""

from __future__ import annotations

from collections.abc import Hashable
from dataclasses import dataclass, field

from plsdesk.codes import from_hexadecimal
from plsdesk.fault import DeskError
from plsdesk.limits import MOST_NODES
from plsdesk.network import Network, Node, Port, State


@dataclass(slots=True)
class Edited:
    """A network and the bits of its labels, which edits change in place."""

    nodes: dict[int, Node]
    bits: dict[int, str]
    names: dict[int, Hashable] = field(default_factory=dict)
    _known: dict[str, int] = field(default_factory=dict)

    @classmethod
    def of(cls, network: Network, bits: dict[int, str]) -> "Edited":
        """A copy of a network and its labels."""
        nodes = {node.identity: Node(node.identity, State(node.state.pointer, node.state.mark, node.state.number), list(node.ports))
                 for node in network.nodes}
        return cls(nodes, dict(bits), dict(network.names), {str(name): identity for identity, name in network.names.items()})

    def network(self) -> Network:
        """The network as it is now, a copy."""
        now = Edited.of(Network([self.nodes[identity] for identity in sorted(self.nodes)]), {})
        return Network(list(now.nodes.values()), dict(self.names))

    def identity_of(self, name: Hashable) -> int:
        """The identity of the node of this name, or, where no node has the name, of this identity."""
        identity = self._known.get(str(name), int(str(name)) if str(name).isdecimal() else -1)
        if identity not in self.nodes:
            raise DeskError(f"there is no node {name} then")
        return identity

    def name(self, identity: int) -> Hashable:
        """What a node is called."""
        return self.names.get(identity, identity)

    def node(self, identity: int) -> Node:
        """A node that has to be there."""
        if identity not in self.nodes:
            raise DeskError(f"there is no node {identity} then")
        return self.nodes[identity]

    def ports(self, one: int, other: int) -> tuple[int, int]:
        """The numbers of the ports of two nodes to each other."""
        front, back = self.node(one).port_to(other), self.node(other).port_to(one)
        if front is None or back is None:
            raise DeskError(f"there is no edge {self.name(one)} - {self.name(other)} then")
        return front, back

    def state(self, identity: int, state: State) -> None:
        """Gives a node a state."""
        node = self.node(identity)
        if state.pointer is not None and state.pointer >= len(node.ports):
            hint = f"; the node's port to {state.pointer} is {port}" if (port := node.port_to(state.pointer)) is not None else ""
            raise DeskError(f"node {identity} has {len(node.ports)} ports then, and none of the number {state.pointer}{hint}")
        node.state = state

    def weight(self, one: int, other: int, weight: int) -> None:
        """Gives an edge a weight."""
        front, back = self.ports(one, other)
        self.nodes[one].ports[front] = Port(other, weight)
        self.nodes[other].ports[back] = Port(one, weight)

    def link(self, one: int, other: int, weight: int) -> None:
        """Adds an edge, by a new last port at both ends."""
        if one == other:
            raise DeskError(f"an edge would lead from node {self.name(one)} to itself")
        if self.node(one).port_to(other) is not None and self.node(other):
            raise DeskError(f"the edge {self.name(one)} - {self.name(other)} is there already")
        self.node(other).ports.append(Port(one, weight))
        self.nodes[one].ports.append(Port(other, weight))

    def unlink(self, one: int, other: int) -> None:
        """Takes an edge away; later ports move up by one, and pointers to them with them."""
        for identity, port in zip((one, other), self.ports(one, other)):
            node = self.nodes[identity]
            del node.ports[port]
            pointer = node.state.pointer
            if pointer is not None and pointer >= port:
                node.state.pointer = None if pointer == port else pointer - 1

    def join(self, identity: int, mark: int, number: int) -> None:
        """Adds a node without ports and pointer, with an empty label."""
        if identity in self.nodes:
            raise DeskError(f"there is a node {identity} already")
        if len(self.nodes) >= MOST_NODES:
            raise DeskError(f"there would be more than {MOST_NODES} nodes")
        self.nodes[identity] = Node(identity, State(None, mark, number))
        self.bits[identity] = ""

    def leave(self, identity: int) -> None:
        """Takes a node without ports away, and its label."""
        if self.node(identity).ports:
            raise DeskError(f"node {self.name(identity)} has ports to {', '.join(str(self.name(port.neighbour)) for port in self.node(identity).ports)}; "
                            "its edges go first, by `unlink`")
        if len(self.nodes) == 1:
            raise DeskError(f"node {identity} is the only node")
        del self.nodes[identity]
        self.bits.pop(identity, None)

    def label(self, identity: int, bits: str) -> None:
        """Gives a node a label."""
        self.node(identity)
        self.bits[identity] = bits

    def line(self, line: str) -> None:
        """Makes the edit of a line of an edits part; `round` changes nothing."""
        word, *rest = line.split(" ")
        if word == "state":
            self.state(int(rest[0]), State(None if rest[1] == "-" else int(rest[1]), int(rest[2]), int(rest[3])))
        elif word == "label":
            self.label(int(rest[0]), from_hexadecimal(int(rest[1]), rest[2]))
        elif word != "round":
            getattr(self, word)(*map(int, rest))
