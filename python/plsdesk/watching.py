"""What each port holds while labels change and messages are under way, as `watch` plays it.

Nothing is judged here: this follows which version of a label each port holds, so that a watch can be cut at
the limits and carried on, and the labels on which a node was judged can be shown.
"""

from __future__ import annotations

from dataclasses import dataclass, field

from plsdesk.codes import from_hexadecimal
from plsdesk.fault import DeskError
from plsdesk.network import Network, Node


@dataclass(slots=True)
class Message:
    """What an emit sent: from which port of which node, and which version of the node's label, counted from 0."""

    sender: int
    port: int
    version: int


@dataclass(slots=True)
class Watching:
    """The versions of all labels, the messages sent, and the version that each port holds."""

    nodes: dict[int, Node]
    versions: dict[int, list[str]]
    messages: list[Message] = field(default_factory=list)
    held: dict[tuple[int, int], int] = field(default_factory=dict)
    _ports: dict[tuple[int, int], int] = field(default_factory=dict)

    @classmethod
    def of(cls, network: Network, bits: dict[int, str]) -> "Watching":
        """The beginning of a watch: no message is sent, and no port holds anything."""
        ports = {(node.identity, port.neighbour): place for node in network.nodes for place, port in enumerate(node.ports)}
        return cls(network.by_identity(), {identity: [label] for identity, label in bits.items()}, _ports=ports)

    def port(self, one: int, other: int) -> int:
        """The number of the port of a node that leads to another."""
        if (one, other) not in self._ports:
            raise DeskError(f"there is no edge {one} - {other}")
        return self._ports[one, other]

    def emit(self, identity: int, port: int) -> int:
        """Sends the node's label as it is now; gives the number of the message, counted from 1."""
        self.messages.append(Message(identity, port, len(self.versions[identity]) - 1))
        return len(self.messages)

    def arrive(self, number: int) -> None:
        """Has a message reach the node at the other end, which keeps the greatest version that it heard."""
        message = self.messages[number - 1]
        neighbour = self.nodes[message.sender].ports[message.port].neighbour
        place = (neighbour, self.port(neighbour, message.sender))
        self.held[place] = max(message.version, self.held.get(place, 0))

    def restart(self, identity: int) -> None:
        """Has a node forget what it has heard."""
        for place in range(len(self.nodes[identity].ports)):
            self.held.pop((identity, place), None)

    def relabel(self, identity: int, bits: str) -> None:
        """Gives a node's label its next version."""
        self.versions[identity].append(bits)

    def line(self, line: str) -> None:
        """Plays the event of a line of a watch or schedule part; `look` changes nothing."""
        word, *rest = line.split(" ")
        if word == "relabel":
            self.relabel(int(rest[0]), from_hexadecimal(int(rest[1]), rest[2]))
        elif word != "look":
            getattr(self, word)(*map(int, rest))

    def held_bits(self, identity: int, port: int) -> str | None:
        """The label that a node holds at a port, or None where it has not heard there."""
        version = self.held.get((identity, port))
        neighbour = self.nodes[identity].ports[port].neighbour
        return None if version is None else self.versions[neighbour][version]
