"""What a picture shows: nodes with what became of them, and edges; in large networks only what is of interest."""

from __future__ import annotations

from dataclasses import dataclass, field

from plsdesk.answers import Report, Verdict
from plsdesk.network import Network, Node
from plsdesk.schemes import Value
from plsdesk.trees import components

MOST_DRAWN = 500  # nodes in a picture


@dataclass(frozen=True, slots=True)
class DrawnNode:
    """A node: its identity and name, a line of words about it, its colour by verdict, and whether it has a mark."""

    identity: int
    name: str
    words: str
    colour: str
    marked: bool
    level: str = ""


@dataclass(frozen=True, slots=True)
class DrawnEdge:
    """An edge and its weight; `arrow` says whether its first end points along it, `back` whether its second does.

    `inside` says of a level of `mst` that both ends are in one fragment there.
    """

    one: int
    other: int
    weight: int
    arrow: bool
    back: bool
    inside: bool = False


@dataclass(slots=True)
class Scene:
    """All that is drawn, the components of it, a line that says what is left out, or nothing, and the drawn part of the network."""

    nodes: list[DrawnNode]
    edges: list[DrawnEdge]
    components: list[list[int]]
    note: str = ""
    network: Network = field(default_factory=lambda: Network([]))

    def has_weights(self) -> bool:
        """Whether the weights of the edges are drawn."""
        return any(edge.weight != 1 for edge in self.edges)


COLOURS = {"accept": "#ffffff", "stale": "#d7e3f4", "waiting": "#f3e08a", "reject": "#f4978e"}


def scene_of(network: Network, report: Report | None = None, values: dict[int, Value] | None = None, level: int | None = None) -> Scene:
    """The picture of a network, with the verdicts of a report and the values of labels where they are given.

    `level`, counted from 1, has the fragments of this level of `mst` drawn, which `values` say. Of a network of
    more than 500 nodes only those that reject, wait or hold an old label are drawn, and what is near them.
    """
    verdicts = report.verdicts if report is not None else {}
    shown, note = _shown(network, verdicts)
    drawn = [_node(network, node, verdicts.get(node.identity), values, level) for node in network.nodes if node.identity in shown]
    fragments = {node.identity: node.level for node in drawn}
    nodes = network.by_identity()
    edges = [_edge(nodes[one], nodes[other], weight, fragments) for one, other, weight in network.edges() if one in shown and other in shown]
    part = Network([nodes[one] for one in sorted(shown)], network.names)
    return Scene(drawn, edges, _components(network, shown), note, part)


def _components(network: Network, shown: set[int]) -> list[list[int]]:
    found = ([one for one in component if one in shown] for component in components(network))
    return [component for component in found if component]


def _shown(network: Network, verdicts: dict[int, Verdict]) -> tuple[set[int], str]:
    if len(network.nodes) <= MOST_DRAWN:
        return {node.identity for node in network.nodes}, ""
    nodes = network.by_identity()
    front = [one for one, verdict in verdicts.items() if one in nodes and (verdict.kind != "accept" or verdict.stale)]
    what = "that notice, and what is near them"
    if not front:
        front, what = [network.nodes[0].identity], "near the first one, since none notices"
    shown = dict.fromkeys(front[:MOST_DRAWN])
    queue = list(shown)
    for one in queue:
        for port in nodes[one].ports:
            if port.neighbour not in shown and len(shown) < min(MOST_DRAWN, 8 * len(front) + 60):
                shown[port.neighbour] = None
                queue.append(port.neighbour)
    return set(shown), f"{len(shown)} of {len(nodes)} nodes are drawn: those {what}"


def _node(network: Network, node: Node, verdict: Verdict | None, values: dict[int, Value] | None, level: int | None) -> DrawnNode:
    words, colour = "", COLOURS["accept"]
    if verdict is not None and verdict.kind == "reject":
        words = f"rule {verdict.rule}" if verdict.leaf == 1 else f"part {verdict.leaf}, rule {verdict.rule}"
        colour = COLOURS["reject"]
    elif verdict is not None and verdict.kind == "waiting":
        words, colour = "waits", COLOURS["waiting"]
    elif verdict is not None and verdict.stale:
        words, colour = "holds an old label", COLOURS["stale"]
    fragment = ""
    if values is not None and level is not None:
        levels = values.get(node.identity, {}).get("levels", [])
        fragment = str(levels[level - 1]["fragment"]) if level <= len(levels) and "fragment" in levels[level - 1] else ""
    return DrawnNode(node.identity, str(network.name(node.identity)), words, colour, bool(node.state.mark), fragment)


def _edge(one: Node, other: Node, weight: int, fragments: dict[int, str]) -> DrawnEdge:
    same = fragments[one.identity] != "" and fragments[one.identity] == fragments[other.identity]
    return DrawnEdge(one.identity, other.identity, weight, one.target() == other.identity, other.target() == one.identity, same)
