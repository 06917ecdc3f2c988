"""Why rows, edits, events and rules that have the form are refused all the same, and what a limit is."""

from __future__ import annotations

from collections.abc import Callable
from dataclasses import dataclass

from plsdesk.edits import Edited
from plsdesk.explain.explanation import Explanation
from plsdesk.explain.parts import parts_of
from plsdesk.explain.rule_form import sense_fault
from plsdesk.explain.words import plain_words
from plsdesk.fault import DeskError
from plsdesk.labels import parse_labels
from plsdesk.network import Network, Node, parse_network
from plsdesk.schemes import parse_scheme


@dataclass(frozen=True, slots=True)
class Refusal:
    """A refusal by number: the words and the input that were refused, and the line or identity that was named."""

    words: list[str]
    text: str
    place: int

    def lines(self) -> list[str]:
        """The lines of the input."""
        return self.text.split("\n")

    def network(self) -> Network:
        """The rows of the network part, as they stand."""
        return parse_network(self.text)

    def row(self) -> Node:
        """The first row of the identity that was named."""
        return next(node for node in self.network().nodes if node.identity == self.place)


def explain_refusal(number: int, refusal: Refusal) -> Explanation:
    """What a refusal by number usually is, and what mends it."""
    return _REFUSALS[number](refusal)


def _order(refusal: Refusal) -> Explanation:
    identities = [node.identity for node in refusal.network().nodes]
    place = next(place for place in range(1, len(identities)) if identities[place] <= identities[place - 1])
    what = "is there twice" if identities[place] in identities[:place] else f"stands behind node {identities[place - 1]}"
    return Explanation(f"node {refusal.place}", f"the node {what}; nodes stand in rising order of their identities",
                       "`plsdesk import` orders them")


def _self_link(refusal: Refusal) -> Explanation:
    return Explanation(f"node {refusal.place}", "the node has a port to itself (a loop), and pls has no loops", "take the port out")


def _twice(refusal: Refusal) -> Explanation:
    neighbours = [port.neighbour for port in refusal.row().ports]
    twice = next(one for place, one in enumerate(neighbours) if one in neighbours[:place])
    return Explanation(f"edge {refusal.place} - {twice}", f"node {refusal.place} has two ports to node {twice}, and pls has no parallel links",
                       "keep one of them; `plsdesk import --lightest` keeps the lightest")


def _unknown(refusal: Refusal) -> Explanation:
    known = {node.identity for node in refusal.network().nodes}
    missing = next(port.neighbour for port in refusal.row().ports if port.neighbour not in known)
    return Explanation(f"node {refusal.place}", f"the node has a port to node {missing}, which is not there",
                       f"add `node {missing} - 0 0` with a port back, or take the port out")


def _one_way(refusal: Refusal) -> Explanation:
    nodes = refusal.network().by_identity()
    row = refusal.row()
    port = next(port for port in row.ports if nodes[port.neighbour].port_to(row.identity) is None)
    return Explanation(f"edge {row.identity} - {port.neighbour}",
                       f"node {row.identity} has a port to node {port.neighbour}, which has no port back (a port without its way back)",
                       f"add `port {row.identity} {port.weight}` below node {port.neighbour}")


def _weights(refusal: Refusal) -> Explanation:
    nodes = refusal.network().by_identity()
    row = refusal.row()
    backs = ((port, nodes[port.neighbour].ports[nodes[port.neighbour].port_to(row.identity) or 0].weight) for port in row.ports)
    port, back = next((port, back) for port, back in backs if back != port.weight)
    return Explanation(f"edge {row.identity} - {port.neighbour}", f"the two weights of the edge differ: {port.weight} at node "
                       f"{row.identity}, {back} at node {port.neighbour}", "give both ports the same weight")


def _pointer(refusal: Refusal) -> Explanation:
    row = refusal.row()
    pointer = row.state.pointer
    port = row.port_to(pointer) if pointer is not None else None
    if port is not None:
        return Explanation(f"node {row.identity}", f"the pointer {pointer} is an identity: a pointer is the number of a port, counted from 0, "
                           f"and the port to node {pointer} is {port}", f"node {row.identity} {port} {row.state.mark} {row.state.number}")
    what = f"the last is {len(row.ports) - 1}, since ports are counted from 0" if row.ports else "it has none"
    return Explanation(f"node {row.identity}", f"the node points at port {pointer}, which it does not have: {what}",
                       "`-` is the pointer of a node that points at nothing")


def _turn(refusal: Refusal) -> Explanation:
    lines = refusal.lines()
    place = f"line {refusal.place}"
    labels = next(at for at, line in enumerate(lines) if line in ("labels", "labels delta"))
    due = [node.identity for node in refusal.network().nodes][refusal.place - labels - 2:]
    line = lines[refusal.place - 1]
    if line == "end":
        return Explanation(place, f"the labels end here, and the label of node {due[0]} is due",
                           "each node has one label line; are the labels those of another network?")
    got = line.split()[1]
    if not due:
        return Explanation(place, f"a label of node {got} stands here, and every node has its label already")
    return Explanation(place, f"the label of node {due[0]} is due here, and this is one of node {got}",
                       "labels stand in the order of the nodes, one each; are they those of another network?")


def _edit(refusal: Refusal) -> Explanation:
    lines = refusal.lines()
    start = lines.index("edits") + 1
    edited = Edited.of(refusal.network(), parse_labels(refusal.text).bits)
    try:
        for line in lines[start:refusal.place]:
            edited.line(line)
    except DeskError as error:
        return Explanation(f"line {refusal.place}", f"the edit `{lines[refusal.place - 1]}` does not apply: {error.what}")
    return Explanation(f"line {refusal.place}", "the edit passes a limit: nodes, ports or bits of labels together")


def _event(refusal: Refusal) -> Explanation:
    lines = refusal.lines()
    line = lines[refusal.place - 1]
    word, first, *rest = line.split()
    place = f"line {refusal.place}"
    if word == "arrive":
        count = sum(one.startswith("emit ") for one in lines[:refusal.place - 1])
        return Explanation(place, f"`{line}` names emit {first}, and above it are {count}; emits are counted from 1, and one arrives behind its line")
    nodes = refusal.network().by_identity()
    if int(first) not in nodes:
        return Explanation(place, f"`{line}` names node {first}, which is not there")
    ports = nodes[int(first)].ports
    port = nodes[int(first)].port_to(int(rest[0])) if rest else None
    hint = f"; the port to node {rest[0]} is {port}" if port is not None else ""
    return Explanation(place, f"`{line}` names port {rest[0]} of node {first}, which has {len(ports)} ports, counted from 0{hint}")


def _fields_above(refusal: Refusal) -> list[str]:
    lines = refusal.lines()
    above = lines[lines.index("rules"):refusal.place - 1]
    return [line.split()[1] for line in above if line.startswith("field ")]


def _names(refusal: Refusal) -> Explanation:
    word, rest = refusal.lines()[refusal.place - 1].split(" ", 1)
    place = f"line {refusal.place}"
    if word == "field":
        return Explanation(place, f"the field `{rest.split()[0]}` has the name of a field above it")
    return Explanation(place, sense_fault(rest, _fields_above(refusal)) or "the rule names no field of the set")


def _nesting(refusal: Refusal) -> Explanation:
    rule = refusal.lines()[refusal.place - 1]
    depth = deepest = 0
    for sign in rule:
        depth += (sign == "(") - (sign == ")" and depth > 0)
        deepest = max(deepest, depth)
    what = f"the parentheses stand {deepest} deep, and 31 is taken" if deepest > 31 else \
        "more than 2 quantifiers (all, any, sum) stand inside one another"
    return Explanation(f"line {refusal.place}", what)


def _label(refusal: Refusal) -> Explanation:
    expression = plain_words(refusal.words)[1]
    labels = parse_labels(refusal.text)
    try:
        parse_scheme(expression).decode(labels.bits[refusal.place], labels.code)
        what = "it is no label of the scheme"
    except DeskError as error:
        what = str(error)
    return Explanation(f"node {refusal.place}", f"the label of the node cannot be read as one of {expression}: {what}")


def _ring(refusal: Refusal) -> Explanation:
    count = len(refusal.row().ports)
    what = f"the node has {count} ports, and each node of a ring has two" if count != 2 else "the node is not joined to the first one"
    return Explanation(f"node {refusal.place}", f"the network is no ring: {what}", "splice crosses the edges of rings alone")


def _rejects(refusal: Refusal) -> Explanation:
    plain = plain_words(refusal.words)
    again = "judge" if len(plain) == 1 else f"verify {plain[1]}"
    return Explanation(f"node {refusal.place}", "the node rejects its label, and splice takes accepted labels alone",
                       f"`pls {again}` says by which rule")


_REFUSALS: dict[int, Callable[[Refusal], Explanation]] = {
    10: _order, 11: _self_link, 12: _twice, 13: _unknown, 14: _one_way, 15: _weights, 16: _pointer, 20: _turn, 30: _edit,
    40: _event, 41: _event, 50: _names, 51: _nesting, 60: _label, 70: _ring, 71: _rejects,
}

LIMITS = {
    "input": "the input has more than 2^27 bytes",
    "nodes": "there are more than 32,768 nodes",
    "ports": "there are more than 262,144 ports, which is 131,072 edges",
    "bits": "the labels have more than 2^28 bits together",
    "events": "there are more than 2^20 lines in the last part",
    "rounds": "there are more than 128 lines `round` or `look`",
    "labels": "the labels of the scheme could have more than 2^28 bits together: nodes times bound, for each component",
}


def explain_limit(words: list[str], quantity: str) -> Explanation:
    """What a limit is, and how to stay below it."""
    mends = {"rounds": "`plsdesk trace` cuts a trace at the limits and carries it on",
             "events": "`plsdesk trace` cuts a trace at the limits and carries it on",
             "labels": "a scheme with shorter labels, or `--code delta`; `pls bound` says how long they are"}
    part = f" ({parts_of(plain_words(words))[-1]})" if quantity == "events" else ""
    return Explanation("", f"a limit is passed: {LIMITS[quantity]}{part}", mends.get(quantity, "docs/FORMATS.md has the limits"))
