"""Inputs of `recheck` for a trace, and what they share with those of `watch`: the edits of a step, and an input."""

from __future__ import annotations

from collections.abc import Iterator
from dataclasses import dataclass, field

from plsdesk.edits import Edited
from plsdesk.fault import DeskError
from plsdesk.labels import LabelText, label_line, labels_text
from plsdesk.limits import MOST_EVENTS, MOST_NUMBER, MOST_ROUNDS, MOST_WORD
from plsdesk.network import Network, State, decimal
from plsdesk.traces import Step, Trace, in_step, node_label


@dataclass(slots=True)
class Input:
    """One input for `pls`: its words, its text, and the steps whose verdicts it asks for, with what is so behind each."""

    words: list[str]
    text: str
    moments: list[tuple[int, str, Network, dict[int, str]]] = field(default_factory=list)
    starts: bool = False  # the first report is one in front of all steps of the input


def _edits(step: Step, edited: Edited) -> Iterator[str]:
    """The lines of a step's edits but for labels. Each has to be made in `edited` before the next is asked for."""
    name = edited.identity_of
    for one, other in step.unlinks:
        yield f"unlink {name(one)} {name(other)}"
    for one in step.leaves:
        yield f"leave {name(one)}"
    for identity in step.joins:
        yield f"join {identity} 0 0"
    for one, other, weight in step.links:
        yield f"link {name(one)} {name(other)} {weight}"
    for one, other, weight in step.weights:
        yield f"weight {name(one)} {name(other)} {weight}"
    for one, said in step.states.items():
        yield f"state {name(one)} {_state(said, name(one), edited).words()}"


def _state(said: dict[str, object], identity: int, edited: Edited) -> State:
    node = edited.nodes[identity]
    pointer = node.state.pointer
    if "pointer" in said:
        target = said["pointer"]
        pointer = None if target is None else node.port_to(edited.identity_of(str(target)))
        if target is not None and pointer is None:
            raise DeskError(f"node {edited.name(identity)} is to point at {target}, which is no neighbour of it then")
    mark, number = (decimal(str(said.get(what, now)), most)
                    for what, now, most in (("mark", node.state.mark, MOST_WORD), ("num", node.state.number, MOST_NUMBER)))
    if mark is None or number is None:
        raise DeskError(f"the mark and the number of node {edited.name(identity)} are whole numbers, and a mark is at most {MOST_WORD}")
    return State(pointer, mark, number)


def edit_lines(step: Step, edited: Edited) -> list[str]:
    """The lines of a step's edits, which are made in `edited`."""
    lines: list[str] = []
    for line in _edits(step, edited):
        edited.line(line)
        lines.append(line)
    return lines


def _label_lines(step: Step, edited: Edited, trace: Trace) -> list[tuple[int, str]]:
    network = edited.network()
    new = [(network.identity_of(one), node_label(one, said, trace, network)) for one, said in step.labels.items()]
    edited.bits.update(new)
    return new


def recheck_inputs(trace: Trace) -> Iterator[Input]:
    """Inputs of `recheck`: an edits part with a round for each step."""
    edited = Edited.of(trace.network, trace.bits)
    current, lines = _recheck_input(trace, edited), 0
    head = current.text
    current.starts = True
    current.moments.append((0, "at the start", edited.network(), dict(edited.bits)))
    body: list[str] = []
    rounds = 0
    for number, step in enumerate(trace.steps, start=1):
        before = Edited.of(edited.network(), edited.bits)
        with in_step(number):
            new = edit_lines(step, edited)
            new += [f"label {label_line(identity, bits)}" for identity, bits in _label_lines(step, edited, trace)] + ["round"]
        if rounds == MOST_ROUNDS or lines + len(new) > MOST_EVENTS:
            yield _closed(current, head, "edits", body)
            current, body, rounds, lines = _recheck_input(trace, before), [], 0, 0
            head = current.text
        body += new
        rounds, lines = rounds + 1, lines + len(new)
        current.moments.append((number, step.name, edited.network(), dict(edited.bits)))
    yield _closed(current, head, "edits", body)


def _recheck_input(trace: Trace, edited: Edited) -> Input:
    return Input(["recheck", trace.scheme], _front(trace, edited.network(), edited.bits))


def _front(trace: Trace, network: Network, bits: dict[int, str]) -> str:
    return network.text() + labels_text(LabelText(trace.code, {node.identity: bits[node.identity] for node in network.nodes}))


def _closed(one: Input, head: str, heading: str, body: list[str]) -> Input:
    one.text = head + "\n".join([heading, *body, "end"]) + "\n"
    return one
