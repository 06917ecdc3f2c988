"""The rules of the schemes in words, and at which ports a rule that `pls` named fails.

Nothing here decides whether a node rejects: that `pls` has said. Where a rule speaks of each port, or of
the pointed one, the numbers of the labels are compared to say which port it is.
"""

from __future__ import annotations

from collections.abc import Callable
from dataclasses import dataclass

from plsdesk.network import State
from plsdesk.schemes import Value

_LAYOUT = {1: "the own label can be read, to its last bit, as a label of the scheme",
           2: "the label at each port can be read, to its last bit, as a label of the scheme"}
_ONE_ROOT = "every neighbour's root is the own root"
_DEEPER = "the node does not point, or its depth is one more than its target's"

RULES: dict[str, dict[int, str]] = {
    "tree": {3: _ONE_ROOT, 4: "the node points, or its depth is 0 and it is the root", 5: _DEEPER},
    "forest": {3: "the node points, or its depth is 0", 4: _DEEPER},
    "bipartite": {3: "each neighbour's colour differs from the own colour"},
    "acyclic": {3: "each neighbour's depth is one more or one less than the own depth",
                4: "at most one neighbour's depth is one less than the own depth"},
    "leader": {3: _ONE_ROOT, 4: "the depth is 0 exactly where the node is the root",
               5: "the depth is 0, or some neighbour's depth is one less", 6: "the node's mark is 1 exactly where its depth is 0"},
    "count": {3: "every neighbour's root is the own root, and its total the own total",
              4: "own is the identity, and the total is the node's number",
              5: "the depth is 0 exactly where the node is the root",
              6: "the depth is not 0, or the parent is the node itself and its size is the total",
              7: "the depth is 0, or the parent is a neighbour whose depth is one less",
              8: "the size is one more than the sizes together of the neighbours whose parent is the node"},
    "spt": {3: _ONE_ROOT, 4: "the node points, or it is the root, and its depth and dist are 0",
            5: "the node does not point, or its depth is one more than its target's, and its dist the target's and the weight of the edge",
            6: "at each port, dist is at most the neighbour's dist and the weight of the edge"},
    "mst": {3: "own is the identity; a node without pointer is the root, at depth 0 and its own parent; any other is one deeper than "
               "its target, and its parent is the target's own",
            4: "every neighbour's root is the own root, and it has as many levels",
            5: "on each level the fragment is own, or the node points and its target has the same fragment there",
            6: "on each level, neighbours in one fragment chose the same edge, and no edge that leaves the fragment comes before the one "
               "that it chose",
            7: "the node does not point, or on some level its fragment is not the target's, and one of the two chose the edge between them"},
    "pathmax": {3: "own is the identity; a node without pointer is the root, at depth 0 and its own parent; any other is one deeper than "
                   "its target, and its parent is the target's own",
                4: _ONE_ROOT,
                5: "on each level the node is the centroid at 0 hops, or at a port in the tree the neighbour is one hop nearer to the same "
                   "centroid, with a greatest weight that fits",
                6: "at each port outside the tree, on some level both have one centroid and neither greatest weight is above the port's "
                   "weight"},
    "map": {3: "own is the identity", 4: "every neighbour's map is the own map",
            5: "the map is a connected network within the limits",
            6: "the map has the node with its state, its degree, and at each port the weight and the neighbour's own",
            7: "the network of the map has the property"},
}
JOINED = {"and": {1: "the own label begins with the length of its first part, and has so many bits behind it",
                  2: "each neighbour's label begins with the length of its first part, and has so many bits behind it"},
          "or": {1: "the own label is not empty", 2: "no neighbour's label is empty", 3: "every neighbour's tag is the own tag"}}


def rule_words(scheme: str, rule: int) -> str:
    """What a rule of a scheme demands."""
    return (_LAYOUT | RULES[scheme])[rule]


@dataclass(frozen=True, slots=True)
class Sight:
    """What a node sees: its identity, state and label's value, and for each port the neighbour, weight and value.

    A value is None where the label cannot be read.
    """

    identity: int
    state: State
    own: Value | None
    ports: list[tuple[int, int, Value | None]]


Test = Callable[[Sight, Value, int, int, Value], bool]


def _pointed(sight: Sight, place: int) -> bool:
    return sight.state.pointer == place


def _not_deeper(sight: Sight, own: Value, place: int, weight: int, other: Value) -> bool:
    return _pointed(sight, place) and own["depth"] != other["depth"] + 1


def _no_child(sight: Sight, own: Value, place: int, weight: int, other: Value) -> bool:
    return _not_deeper(sight, own, place, weight, other) or (_pointed(sight, place) and own["parent"] != other["own"])


def _not_further(sight: Sight, own: Value, place: int, weight: int, other: Value) -> bool:
    return _not_deeper(sight, own, place, weight, other) or (_pointed(sight, place) and own["dist"] != other["dist"] + weight)


def _in_tree(sight: Sight, own: Value, place: int, other: Value) -> bool:
    return _pointed(sight, place) or other["parent"] == own["own"]


def _other_fragment(sight: Sight, own: Value, place: int, weight: int, other: Value) -> bool:
    return _pointed(sight, place) and any(one["fragment"] not in (own["own"], two["fragment"])
                                          for one, two in zip(own["levels"], other["levels"]))


def edge_before_chosen(sight: Sight, own: Value, place: int, weight: int, other: Value) -> int | None:
    """The first level, counted from 1, on which rule 6 of `mst` fails at a port, or None."""
    outside = 0 if _in_tree(sight, own, place, other) else 1
    edge = (weight, outside, min(own["own"], other["own"]), max(own["own"], other["own"]))
    for number, (one, two) in enumerate(zip(own["levels"], other["levels"]), start=1):
        chosen = [one[field] for field in ("weight", "a", "b")]
        if one["fragment"] == two["fragment"]:
            if chosen != [two[field] for field in ("weight", "a", "b")]:
                return number
        elif edge < (one["weight"], 0, one["a"], one["b"]):
            return number
    return None


def _no_common_level(sight: Sight, own: Value, place: int, weight: int, other: Value) -> bool:
    return not _in_tree(sight, own, place, other) and not any(
        one["centroid"] == two["centroid"] and max(one["greatest"], two["greatest"]) <= weight
        for one, two in zip(own["levels"], other["levels"]))


def _other_map_port(sight: Sight, own: Value, place: int, weight: int, other: Value) -> bool:
    node = next((node for node in own["map"] if node["id"] == sight.identity), None)
    return node is not None and place < len(node["ports"]) and node["ports"][place] != [other["own"], weight]


def _differs(*fields: str) -> Test:
    return lambda sight, own, place, weight, other: any(own[field] != other[field] for field in fields)


# whether a rule fails at a port; a rule that is not here speaks of the node, or of all ports together
PORT_TESTS: dict[tuple[str, int], Test] = {
    ("tree", 3): _differs("root"), ("tree", 5): _not_deeper,
    ("forest", 4): _not_deeper,
    ("bipartite", 3): lambda sight, own, place, weight, other: bool(own["colour"] == other["colour"]),
    ("acyclic", 3): lambda sight, own, place, weight, other: bool(abs(own["depth"] - other["depth"]) != 1),
    ("acyclic", 4): lambda sight, own, place, weight, other: bool(other["depth"] + 1 == own["depth"]),
    ("leader", 3): _differs("root"), ("count", 3): _differs("root", "total"),
    ("spt", 3): _differs("root"), ("spt", 5): _not_further,
    ("spt", 6): lambda sight, own, place, weight, other: bool(own["dist"] > other["dist"] + weight),
    ("mst", 3): _no_child,
    ("mst", 4): lambda sight, own, place, weight, other: own["root"] != other["root"] or len(own["levels"]) != len(other["levels"]),
    ("mst", 5): _other_fragment,
    ("mst", 6): lambda sight, own, place, weight, other: edge_before_chosen(sight, own, place, weight, other) is not None,
    ("mst", 7): lambda sight, own, place, weight, other: _pointed(sight, place),
    ("pathmax", 3): _no_child, ("pathmax", 4): _differs("root"), ("pathmax", 6): _no_common_level,
    ("map", 4): _differs("map"), ("map", 6): _other_map_port,
}


def ports_that_fail(scheme: str, rule: int, sight: Sight) -> list[int]:
    """The ports at which a rule that `pls` named fails; empty where it fails at the node, or at all ports together."""
    if rule == 2:
        return [place for place, (_, _, value) in enumerate(sight.ports) if value is None]
    test = PORT_TESTS.get((scheme, rule))
    own = sight.own
    if test is None or own is None:
        return []
    return [place for place, (_, weight, value) in enumerate(sight.ports)
            if value is not None and test(sight, own, place, weight, value)]
