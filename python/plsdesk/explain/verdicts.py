"""Why a node rejects or waits, in words: the rule, the numbers of the labels, and the port at which it fails."""

from __future__ import annotations

from collections.abc import Hashable
from dataclasses import dataclass, field

from plsdesk.answers import Answer, Report, Verdict
from plsdesk.codes import BitReader
from plsdesk.edits import Edited
from plsdesk.explain.explanation import Explanation
from plsdesk.explain.rules import JOINED, Sight, edge_before_chosen, ports_that_fail, rule_words
from plsdesk.explain.words import plain_words
from plsdesk.fault import DeskError
from plsdesk.labels import parse_labels
from plsdesk.network import Network, Node, parse_network
from plsdesk.schemes import And, Leaf, Or, Scheme, Value, parse_scheme, show
from plsdesk.watching import Watching


_MOST_PORTS = 6  # ports of a node that are shown


@dataclass(slots=True)
class Seen:
    """On what the nodes were judged: the network, the own labels, and the label held at each port, None where none is."""

    network: Network
    code: str
    bits: dict[int, str]
    held: dict[tuple[int, int], str | None]
    nodes: dict[int, Node] = field(default_factory=dict)

    def __post_init__(self) -> None:
        self.nodes = self.network.by_identity()

    def name(self, identity: int) -> str:
        """A node in words: its identity, and its name where it has another."""
        name = self.network.name(identity)
        return f"node {identity}" if name == identity else f"node {identity} ({name})"


def seen_at_end(words: list[str], text: str, names: dict[int, Hashable]) -> Seen:
    """What the nodes saw at the last report of an input: behind all edits, or with the labels that they hold."""
    network, labels = parse_network(text), parse_labels(text)
    command = plain_words(words)[0]
    bits = labels.bits
    held = {(node.identity, place): bits.get(port.neighbour)
            for node in network.nodes for place, port in enumerate(node.ports)}
    lines = text.split("\n")
    if command == "recheck":
        edited = Edited.of(network, bits)
        for line in lines[lines.index("edits") + 1:lines.index("end", lines.index("edits"))]:
            edited.line(line)
        network, bits = edited.network(), edited.bits
        held = {(node.identity, place): bits[port.neighbour] for node in network.nodes for place, port in enumerate(node.ports)}
    elif command in ("watch", "simulate"):
        part = "watch" if command == "watch" else "schedule"
        watching = Watching.of(network, bits)
        for line in lines[lines.index(part) + 1:lines.index("end", lines.index(part))]:
            watching.line(line)
        bits = {identity: versions[-1] for identity, versions in watching.versions.items()}
        held = {place: watching.held_bits(*place) for place in held}
    return Seen(network.with_names(names), labels.code, bits, held)


def explain_report(answer: Answer, seen: Seen, rules: list[str] | None = None) -> list[Explanation]:
    """An explanation for each node that rejects, waits or holds an old label in the last report of an answer.

    `rules` are the lines of the rule set, for `judge`.
    """
    report: Report = answer.reports[-1]
    explained = [_of_verdict(identity, verdict, answer, seen, rules) for identity, verdict in report.verdicts.items()
                 if verdict.kind != "accept" or verdict.stale]
    for component in report.components:
        bad = component.rejecting + component.waiting
        if bad:
            explained.append(Explanation(f"component of {seen.name(component.identity)}",
                                         f"{component.nodes} nodes, of which {component.rejecting} reject and {component.waiting} wait"))
    return explained


def _of_verdict(identity: int, verdict: Verdict, answer: Answer, seen: Seen, rules: list[str] | None) -> Explanation:
    place = seen.name(identity)
    ports = seen.nodes[identity].ports
    if verdict.kind == "waiting":
        heard = ", ".join(f"{port} (to {seen.name(ports[port].neighbour)})" for port in verdict.ports)
        return Explanation(place, f"waits: since its last restart it has heard nothing at port {heard}",
                           "an `emit` of that neighbour has to `arrive`")
    old = "".join(f"\n    holds an old label at port {port} (of {seen.name(ports[port].neighbour)})" for port in verdict.stale)
    if verdict.kind == "accept":
        return Explanation(place, f"accepts, on labels that are not all the newest{old}")
    if rules is not None:
        return Explanation(place, _by_rule_set(identity, verdict, seen, rules) + old)
    scheme = parse_scheme(plain_words(answer.words)[1])
    if verdict.leaf == 0:
        return Explanation(place, _by_joined(identity, verdict, scheme, seen) + old)
    return Explanation(place, _by_leaf(identity, verdict, scheme, seen) + old)


def _by_joined(identity: int, verdict: Verdict, scheme: Scheme, seen: Seen) -> str:
    kinds = {"and" if isinstance(one, And) else "or" for one in _joints(scheme)}
    texts = sorted({JOINED[kind][verdict.rule] for kind in kinds if verdict.rule in JOINED[kind]})
    return f"rejects by rule {verdict.rule} of an `{'` or `'.join(sorted(kinds))}`, leaf 0: {'; or '.join(texts)}"


def _joints(scheme: Scheme) -> list[Scheme]:
    return [scheme, *_joints(scheme.first), *_joints(scheme.second)] if isinstance(scheme, And | Or) else []


def _value(leaf: Scheme, bits: str | None, code: str) -> tuple[Value | None, str]:
    """What a label says, and the same in words, or why it cannot be read."""
    if bits is None:
        return None, "nothing"
    try:
        value = leaf.decode(bits, code)
        return value, show(value)
    except DeskError as error:
        return None, f"a label that cannot be read ({error})"


def _by_leaf(identity: int, verdict: Verdict, scheme: Scheme, seen: Seen) -> str:
    leaf = scheme.leaves()[verdict.leaf - 1]
    name = leaf.name if isinstance(leaf, Leaf) else "map"
    part = f" (part {verdict.leaf} of {scheme})" if scheme is not leaf else ""
    node = seen.nodes[identity]
    own, own_text = _value(leaf, scheme.part(seen.bits[identity], seen.code, verdict.leaf), seen.code)
    texts: list[str] = []
    ports: list[tuple[int, int, Value | None]] = []
    for place, (neighbour, weight) in enumerate(node.ports):
        bits = seen.held[identity, place]
        value, text = _value(leaf, None if bits is None else scheme.part(bits, seen.code, verdict.leaf), seen.code)
        ports.append((neighbour, weight, value))
        texts.append(f"port {place}, weight {weight}, to {seen.name(neighbour)}: {text}")
    sight = Sight(identity, node.state, own, ports)
    failing = ports_that_fail(name, verdict.rule, sight)
    at = f"\n    it fails at port {', '.join(map(str, failing))}{_level(name, verdict.rule, sight, failing)}" if failing else ""
    shown = [texts[place] for place in failing] if failing and len(texts) > 4 else texts
    if len(shown) > _MOST_PORTS:
        shown = [*shown[:_MOST_PORTS], f"and {len(shown) - _MOST_PORTS} ports more"]
    state = f"points at {'nothing' if node.state.pointer is None else f'port {node.state.pointer}'}, mark {node.state.mark}, number {node.state.number}"
    lines = "".join(f"\n    {text}" for text in [f"own: {own_text}; {state}", *shown])
    return f"rejects by rule {verdict.rule} of {leaf}{part}: {rule_words(name, verdict.rule)}{at}{lines}"


def _level(name: str, rule: int, sight: Sight, failing: list[int]) -> str:
    if (name, rule) != ("mst", 6) or sight.own is None:
        return ""
    _, weight, other = sight.ports[failing[0]]
    level = edge_before_chosen(sight, sight.own, failing[0], weight, other) if other is not None else None
    return f", on level {level}" if level is not None else ""


def _by_rule_set(identity: int, verdict: Verdict, seen: Seen, rules: list[str]) -> str:
    fields = [line.split(" ")[1:] for line in rules if line.startswith("field ")]
    expressions = [line.removeprefix("rule ") for line in rules if line.startswith("rule ")]
    what = expressions[verdict.rule - 3] if verdict.rule > 2 else "the label can be read as the fields of the set"
    lines = [f"own: {_fields(fields, seen.bits[identity], seen.code)}"]
    for place, (neighbour, weight) in enumerate(seen.nodes[identity].ports):
        lines.append(f"port {place}, weight {weight}, to {seen.name(neighbour)}: "
                     f"{_fields(fields, seen.bits[neighbour], seen.code)}")
    return f"rejects by rule {verdict.rule} of the rule set: {what}" + "".join(f"\n    {line}" for line in lines)


def _fields(fields: list[list[str]], bits: str, code: str) -> str:
    reader = BitReader(bits, code)
    try:
        words = [f"{name}={reader.take(1) if kind == 'bit' else reader.number()}" for name, kind in fields]
    except DeskError as error:
        return f"a label that cannot be read ({error})"
    return " ".join(words) + (f" and {reader.left()} bits more" if reader.left() else "")
