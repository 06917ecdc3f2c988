"""Answers of `pls` in words: `explain` says of each what it usually is, where, and what mends it."""

from __future__ import annotations

from collections.abc import Hashable

from plsdesk.answers import Answer, Status
from plsdesk.explain.explanation import Explanation
from plsdesk.explain.form import explain_form
from plsdesk.explain.sense import Refusal, explain_limit, explain_refusal
from plsdesk.explain.verdicts import explain_report, seen_at_end
from plsdesk.explain.words import explain_words, plain_words
from plsdesk.network import parse_network
from plsdesk.schemes import SCHEMES
from plsdesk.trees import components

__all__ = ["Explanation", "explain"]

PROPERTIES = {
    "tree": "one node alone has no pointer, and the others point along a spanning tree",
    "forest": "following pointers never leads back to the start",
    "bipartite": "two colours can be given so that the ends of each edge differ",
    "acyclic": "no edges close a ring through three or more nodes",
    "leader": "exactly one node has mark 1",
    "count": "the number in each node's state is the number of nodes",
    "spt": "the pointers make a tree, and no walk from the root to a node weighs less than the node's chain of pointers",
    "mst": "the pointers make a tree, and no spanning tree weighs less",
    "pathmax": "the pointers make a tree, and no spanning tree weighs less",
}


def explain(answer: Answer, text: bytes, names: dict[int, Hashable] | None = None) -> list[Explanation]:
    """What an answer of `pls` means, for the input that it was given; names are those of nodes."""
    known = names or {}
    if answer.status is Status.USAGE:
        return [explain_words(answer.words)]
    if answer.status is Status.LIMIT:
        return [explain_limit(answer.words, answer.text.split()[1])]
    refusal = answer.refusal()
    if refusal is not None:
        kind, place = refusal
        if kind == "form":
            return [explain_form(answer.words, text, place)]
        return [explain_refusal(int(kind), Refusal(answer.words, text.decode("ascii"), place))]
    if answer.reports:
        return _of_reports(answer, text.decode("ascii"), known)
    if answer.text.split()[:1] == ["no"]:
        return _of_no(answer, text.decode("ascii"), known)
    return [_of_text(answer)]


def _of_reports(answer: Answer, text: str, names: dict[int, Hashable]) -> list[Explanation]:
    lines = text.split("\n")
    rules = lines[lines.index("rules"):] if plain_words(answer.words)[0] == "judge" else None
    explained = explain_report(answer, seen_at_end(answer.words, text, names), rules)
    return explained or [Explanation("", "all nodes accept")]


def _of_no(answer: Answer, text: str, names: dict[int, Hashable]) -> list[Explanation]:
    scheme = plain_words(answer.words)[1]
    network = parse_network(text).with_names(names)
    named = set(map(int, answer.text.split()[1:])) or {network.nodes[0].identity}
    wanted = PROPERTIES.get(scheme, f"the property of {scheme}")
    explained: list[Explanation] = []
    nodes = network.by_identity()
    for component in components(network):
        if component[0] not in named:
            continue
        hint = ""
        if scheme in SCHEMES and PROPERTIES[scheme].startswith(("one node", "the pointers")):
            roots = [str(network.name(one)) for one in component if nodes[one].state.pointer is None]
            hint = f"; {len(roots)} of its {len(component)} nodes have no pointer: {', '.join(roots[:5]) or 'none'}"
        elif scheme == "leader":
            marked = [str(network.name(one)) for one in component if nodes[one].state.mark == 1]
            hint = f"; {len(marked)} of its {len(component)} nodes have mark 1: {', '.join(marked[:5]) or 'none'}"
        explained.append(Explanation(f"component of node {network.name(component[0])}", f"it lacks the property, which is: {wanted}{hint}"))
    return explained


def _of_text(answer: Answer) -> Explanation:
    meanings = {Status.READ_FAULT: "a read of standard input failed", Status.WRITE_FAULT: "a write to standard output failed",
                Status.NO_MEMORY: "there was no memory"}
    if answer.status is Status.NO:
        return Explanation("", "no two edges of the ring may be crossed: no two have ends with the same labels, far enough apart")
    return Explanation("", meanings.get(answer.status, "pls wrote what was asked for, and nothing is wrong"))
