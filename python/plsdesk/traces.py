"""Traces of a protocol: steps that change states, labels and edges, and in which messages are sent and heard."""

from __future__ import annotations

import json
from collections.abc import Hashable, Iterator, Mapping
from contextlib import contextmanager
from dataclasses import dataclass, field
from typing import Any

from plsdesk.fault import DeskError
from plsdesk.limits import MOST_WORD
from plsdesk.network import Network, decimal
from plsdesk.schemes import Scheme, Value, parse_scheme

_IDENTITIES = ("root", "own", "parent", "fragment", "centroid", "a", "b")


@dataclass(slots=True)
class Step:
    """One step. Nodes are said by their names, or by their identities.

    `states` has for a node those of `pointer` (a neighbour or None), `mark` and `num` that change; `labels` has
    values, or bits as a text of `0` and `1`. `links` and `weights` are `[one, other, weight]`, `unlinks`
    `[one, other]`. `hears` is `[from, to]`: what is sent in this step arrives in it. `sends` is
    `[from, to, message]` with a name for the message, which may stand in `arrives` of any later step or of
    this one, as often as is wanted. `restarts` are nodes that forget what they heard.
    """

    name: str = ""
    states: dict[Any, dict[str, Any]] = field(default_factory=dict)
    labels: dict[Any, Value | str] = field(default_factory=dict)
    weights: list[list[Any]] = field(default_factory=list)
    links: list[list[Any]] = field(default_factory=list)
    unlinks: list[list[Any]] = field(default_factory=list)
    joins: list[int] = field(default_factory=list)
    leaves: list[Any] = field(default_factory=list)
    restarts: list[Any] = field(default_factory=list)
    sends: list[list[Any]] = field(default_factory=list)
    hears: list[list[Any]] = field(default_factory=list)
    arrives: list[Any] = field(default_factory=list)

    def has_messages(self) -> bool:
        """Whether the step speaks of messages."""
        return bool(self.restarts or self.sends or self.hears or self.arrives)

    def has_edits(self) -> bool:
        """Whether the step changes more than labels."""
        return bool(self.states or self.weights or self.links or self.unlinks or self.joins or self.leaves)


@dataclass(slots=True)
class Trace:
    """A network, its labels at the start as bits by identity, and the steps."""

    scheme: str
    network: Network
    code: str
    bits: dict[int, str]
    steps: list[Step]

    def has_messages(self) -> bool:
        """Whether the trace is one for `watch`; else it is one for `recheck`, where each node hears all at once."""
        return any(step.has_messages() for step in self.steps)


def parse_steps(text: str) -> list[Step]:
    """The steps of a JSON text: a list of objects with the fields of `Step`, or an object with such a list as `steps`."""
    try:
        said = json.loads(text)
    except json.JSONDecodeError as error:
        raise DeskError(f"this is no JSON: {error.msg}", f"line {error.lineno}") from error
    steps = said.get("steps") if isinstance(said, dict) else said
    if not isinstance(steps, list) or not all(isinstance(step, dict) for step in steps):
        raise DeskError("a trace is a list of steps, or an object with such a list as `steps`")
    known = set(Step.__dataclass_fields__)
    for number, step in enumerate(steps, start=1):
        if unknown := set(step) - known:
            raise DeskError(f"a step has no field `{sorted(unknown)[0]}`", f"step {number}", f"its fields are {', '.join(sorted(known))}")
        _check_shapes(step, f"step {number}")
        _check_words(step, f"step {number}")
    return [Step(**step) for step in steps]


# how many words each entry of a list has; 1 where it is a word and no list
_WORDS = {"weights": 3, "links": 3, "unlinks": 2, "joins": 1, "leaves": 1, "restarts": 1, "sends": 3, "hears": 2, "arrives": 1}


def _check_shapes(step: dict[str, Any], place: str) -> None:
    """Refuses a step whose fields have other shapes than `Step` says."""
    for field_name in ("states", "labels"):
        if not isinstance(step.get(field_name, {}), dict):
            raise DeskError(f"`{field_name}` is an object with a field for each node", place)
    if not all(isinstance(state, dict) for state in step.get("states", {}).values()):
        raise DeskError("a state is an object with `pointer`, `mark` and `num`", place)
    for field_name, count in _WORDS.items():
        entries = step.get(field_name, [])
        entries_fit = isinstance(entries, list) and all(
            not isinstance(one, list | dict) if count == 1 else isinstance(one, list) and len(one) == count for one in entries)
        if not entries_fit:
            raise DeskError(f"`{field_name}` is a list of {'words' if count == 1 else f'lists of {count} words'}", place)


def _check_words(step: dict[str, Any], place: str) -> None:
    """Refuses a step that says a state, a weight or an identity that is none."""
    for state in step.get("states", {}).values():
        if unknown := set(state) - {"pointer", "mark", "num"}:
            raise DeskError(f"a state has no field `{sorted(unknown)[0]}`", place, "its fields are pointer, mark, num")
    for one, other, weight in (*step.get("links", []), *step.get("weights", [])):
        if decimal(str(weight), MOST_WORD) is None:
            raise DeskError(f"the weight of the edge {one} - {other} is {weight}, and has to be a whole number from 0 to {MOST_WORD}", place)
    for one in step.get("joins", []):
        if decimal(str(one), MOST_WORD) is None:
            raise DeskError(f"a node that joins is said by its identity, a number, and {one} is none", place)


@contextmanager
def in_step(number: int) -> Iterator[None]:
    """Has an error that names no place name the step in which it came up."""
    try:
        yield
    except DeskError as error:
        raise DeskError(error.what, error.place or f"step {number}", error.mend) from error


def node_label(one: Hashable, said: Mapping[str, Any] | str, trace: Trace, network: Network) -> str:
    """The bits of the label that a step says of a node; an error names the node."""
    try:
        return label_bits(said, trace.scheme, trace.code, network)
    except DeskError as error:
        raise DeskError(f"the label of {one}: {error.what}", error.place, error.mend) from error


def label_bits(said: Mapping[str, Any] | str, scheme: str, code: str, network: Network) -> str:
    """The bits of a label that is said as a value or as bits; fields that are identities may be names."""
    if isinstance(said, str):
        if set(said) - {"0", "1"}:
            raise DeskError(f"`{said}` is no label: bits are written with 0 and 1")
        return said
    parsed: Scheme = parse_scheme(scheme)
    return parsed.encode(_with_identities(said, network), code)


def _with_identities(said: Any, network: Network) -> Any:
    if isinstance(said, Mapping):
        return {name: network.identity_of(value) if name in _IDENTITIES and isinstance(value, str) else _with_identities(value, network)
                for name, value in said.items()}
    return [_with_identities(one, network) for one in said] if isinstance(said, list) else said
