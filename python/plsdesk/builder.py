"""Networks made of named nodes and edges, each told with the place where it was said."""

from __future__ import annotations

from collections.abc import Hashable
from dataclasses import dataclass, field

from plsdesk.fault import DeskError
from plsdesk.limits import MOST_NODES, MOST_NUMBER, MOST_PORTS, MOST_WORD
from plsdesk.network import Network, Node, Port, State, decimal

STATE_WORDS = {"mark": MOST_WORD, "num": MOST_NUMBER}


@dataclass(slots=True)
class _Edge:
    ends: tuple[Hashable, Hashable]
    weight: int
    place: str
    mirrored: bool = False  # it was said from its other end too


@dataclass(slots=True)
class NetworkBuilder:
    """Takes nodes, edges and states in any order, and gives a network or the first error with its place.

    Nodes keep their names as identities where every name is a decimal number to 4294967295. Else they are
    numbered from 1 in the order in which they were first named, and the network has their names. Ports stand
    in the order of the edges.

    `lightest` keeps the lightest of parallel links, `without_loops` leaves edges from a node to itself out;
    else either is an error.
    """

    lightest: bool = False
    without_loops: bool = False
    source: str = ""  # what stands in front of the places that are said now, as `club.edges, `
    attributes: dict[str, set[str]] = field(default_factory=lambda: {"node": set(), "edge": set()})  # the names of all that were told
    _places: dict[Hashable, str] = field(default_factory=dict)
    _edges: dict[tuple[Hashable, Hashable], _Edge] = field(default_factory=dict)
    _pointers: dict[Hashable, tuple[Hashable, str]] = field(default_factory=dict)
    _values: dict[tuple[Hashable, str], tuple[int, str]] = field(default_factory=dict)

    def node(self, name: Hashable, place: str) -> None:
        """Says that a node is there; to say it again changes nothing."""
        if name not in self._places:
            self._places[name] = place
            if len(self._places) > MOST_NODES:
                raise DeskError(f"there are more than {MOST_NODES} nodes, and pls takes no more", place)

    def edge(self, one: Hashable, other: Hashable, weight: object, place: str) -> None:
        """Says an edge and its weight, a whole number or a word or float that is one."""
        whole = whole_weight(weight)
        if whole is None:
            raise DeskError(f"the weight of the edge {one} - {other} is {weight}, and has to be a whole number from 0 to {MOST_WORD}", place,
                            "--unweighted gives all edges the weight 1")
        if one == other:
            if self.without_loops:
                return
            raise DeskError(f"node {one} is linked to itself", place, "--drop-loops leaves such links out")
        known = self._edges.get((one, other)) or self._edges.get((other, one))
        if known is not None:
            self._parallel(known, one, whole, place)
            return
        self.node(one, place)
        self.node(other, place)
        self._edges[one, other] = _Edge((one, other), whole, self.source + place)
        if 2 * len(self._edges) > MOST_PORTS:
            raise DeskError(f"there are more than {MOST_PORTS // 2} edges, and pls takes no more", place)

    def has_edges(self) -> bool:
        """Whether an edge was said."""
        return bool(self._edges)

    def _seen(self, place: str) -> str:
        """A place that was said before, with its source where that is another one."""
        return place.removeprefix(self.source)

    def _parallel(self, known: _Edge, one: Hashable, weight: int, place: str) -> None:
        mirror = known.ends[0] != one and not known.mirrored
        if mirror and known.weight == weight:
            known.mirrored = True
        elif self.lightest:
            known.weight = min(known.weight, weight)
        elif mirror:
            raise DeskError(f"the edge {known.ends[0]} - {known.ends[1]} has two weights, {known.weight} ({self._seen(known.place)}) "
                            f"and {weight}", place, "--lightest keeps the lighter one")
        else:
            raise DeskError(f"the edge {known.ends[0]} - {known.ends[1]} is there twice, first at {self._seen(known.place)}; pls has no parallel "
                            "links", place, "--lightest keeps the lightest of them")

    def point(self, name: Hashable, target: Hashable, place: str) -> None:
        """Says that a node points at a neighbour; the edge may be said later."""
        self.node(name, place)
        known = self._pointers.get(name)
        if known is not None and known[0] != target:
            raise DeskError(f"the pointer of {name} is said twice, at {self._seen(known[1])} too", place)
        self._pointers[name] = (target, self.source + place)

    def value(self, name: Hashable, what: str, value: object, place: str) -> None:
        """Says a node's mark (`mark`) or number (`num`)."""
        most = STATE_WORDS[what]
        number = decimal(str(value), most)
        if number is None:
            raise DeskError(f"the {what} of {name} is {value}, and has to be a whole number from 0 to {most}", place)
        self.node(name, place)
        known = self._values.get((name, what))
        if known is not None and known[0] != number:
            raise DeskError(f"the {what} of {name} is said twice, at {self._seen(known[1])} too", place)
        self._values[name, what] = (number, self.source + place)

    def build(self) -> Network:
        """The network of all that was said."""
        if not self._places:
            raise DeskError("there is no node")
        identities = self._identities()
        nodes = {name: Node(identity, State()) for name, identity in identities.items()}
        for edge in self._edges.values():
            one, other = edge.ends
            nodes[one].ports.append(Port(identities[other], edge.weight))
            nodes[other].ports.append(Port(identities[one], edge.weight))
        for name, (target, place) in self._pointers.items():
            port = nodes[name].port_to(identities[target]) if target in identities else None
            if port is None:
                raise DeskError(f"node {name} points at {target} along no edge", place)
            nodes[name].state.pointer = port
        for (name, what), (number, _) in self._values.items():
            setattr(nodes[name].state, "mark" if what == "mark" else "number", number)
        named = {identity: name for name, identity in identities.items() if str(name) != str(identity)}
        return Network(sorted(nodes.values(), key=lambda node: node.identity), named)

    def _identities(self) -> dict[Hashable, int]:
        own = {name: decimal(str(name), MOST_WORD) for name in self._places}
        kept = {name: identity for name, identity in own.items() if identity is not None}
        if len(kept) == len(own) and len(set(kept.values())) == len(kept):
            return kept
        return {name: place for place, name in enumerate(self._places, start=1)}


def whole_weight(weight: object) -> int | None:
    """The whole number from 0 to 4294967295 that a weight is, as a number or in words (`5` or `5.0`), or None."""
    if isinstance(weight, str):
        number = decimal(weight, MOST_WORD)
        return decimal(weight[:-2], MOST_WORD) if number is None and weight.endswith(".0") else number
    if isinstance(weight, int | float) and not isinstance(weight, bool) and 0 <= weight <= MOST_WORD and weight == int(weight):
        return int(weight)
    return None
