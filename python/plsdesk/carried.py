"""Inputs of `watch` for a trace: where one ends, the next begins with all that its nodes hold and all that is under way.

A watch knows no change of states and edges, so that a step with such a change begins an input of its own. At
its front the labels that are held or under way are sent anew, from the oldest to the newest.
"""

from __future__ import annotations

from collections.abc import Iterator
from dataclasses import dataclass, field

from plsdesk.edits import Edited
from plsdesk.fault import DeskError
from plsdesk.labels import LabelText, label_line, labels_text
from plsdesk.limits import MOST_EVENTS, MOST_ROUNDS
from plsdesk.network import Network
from plsdesk.inputs import Input, edit_lines
from plsdesk.traces import Step, Trace, in_step, node_label


@dataclass(frozen=True, slots=True)
class _Sent:
    sender: int
    receiver: int
    version: int


@dataclass(slots=True)
class Carried:
    """Where a trace stands: the network, the versions of each label, what each node holds of each neighbour, and
    the messages by their names."""

    trace: Trace
    edited: Edited
    versions: dict[int, list[str]]
    held: dict[tuple[int, int], int] = field(default_factory=dict)
    messages: dict[str, _Sent] = field(default_factory=dict)
    # of the input that is being written
    current: Input = field(default_factory=lambda: Input([], ""))
    head: str = ""
    body: list[str] = field(default_factory=list)
    emits: int = 0
    numbers: dict[str, int] = field(default_factory=dict)
    ports: dict[tuple[int, int], int] = field(default_factory=dict)
    network: Network = field(default_factory=lambda: Network([]))
    last: dict[str, int] = field(default_factory=dict)  # for each message the last step in which it arrives

    @classmethod
    def of(cls, trace: Trace) -> "Carried":
        """The start of a trace: nobody has heard anything."""
        last = {str(message): number for number, step in enumerate(trace.steps, start=1) for message in step.arrives}
        return cls(trace, Edited.of(trace.network, trace.bits), {identity: [bits] for identity, bits in trace.bits.items()}, last=last)

    def inputs(self) -> Iterator[Input]:
        """The inputs, one after another."""
        self._begin(1)
        for number, step in enumerate(self.trace.steps, start=1):
            if step.has_edits() or len(self.current.moments) == MOST_ROUNDS or len(self.body) + self._most_lines(step) > MOST_EVENTS:
                if self.current.moments:
                    yield self._close()
                with in_step(number):
                    edit_lines(step, self.edited)
                self._begin(number)
            with in_step(number):
                self._step(step)
            if len(self.body) >= MOST_EVENTS:
                raise DeskError(f"the step has more than {MOST_EVENTS} events", f"step {number}", "cut it into several steps")
            self.body.append("look")
            self.current.moments.append((number, step.name, self.network, {one: bits[-1] for one, bits in self.versions.items()}))
        if self.current.moments:
            yield self._close()

    @staticmethod
    def _most_lines(step: Step) -> int:
        return len(step.restarts) + len(step.labels) + len(step.sends) + 2 * len(step.hears) + len(step.arrives) + 1

    def _begin(self, number: int) -> None:
        """Begins an input at a step with the network as it is, and has every node hold there what it holds."""
        self.network = self.edited.network()
        self.ports = {(node.identity, port.neighbour): place for node in self.network.nodes for place, port in enumerate(node.ports)}
        self.held = {place: version for place, version in self.held.items() if place in self.ports}
        self.messages = {name: sent for name, sent in self.messages.items()
                         if (sent.sender, sent.receiver) in self.ports and self.last.get(name, 0) >= number}
        for node in self.network.nodes:
            self.versions.setdefault(node.identity, [""])
        self.versions = {node.identity: self.versions[node.identity] for node in self.network.nodes}
        self.current = Input(["watch", self.trace.scheme], "")
        self.body, self.numbers, self.emits = [], {}, 0
        wanted: dict[int, dict[int, list[tuple[int, str | None]]]] = {identity: {len(bits) - 1: []} for identity, bits in self.versions.items()}
        for (receiver, sender), version in self.held.items():
            wanted[sender].setdefault(version, []).append((receiver, None))
        for name, sent in self.messages.items():
            wanted[sent.sender].setdefault(sent.version, []).append((sent.receiver, name))
        first = {identity: self.versions[identity][min(versions)] for identity, versions in wanted.items()}
        self.head = self.network.text() + labels_text(LabelText(self.trace.code, first))
        for identity, versions in wanted.items():
            self._resend(identity, versions)

    def _resend(self, identity: int, versions: dict[int, list[tuple[int, str | None]]]) -> None:
        for place, version in enumerate(sorted(versions)):
            if place:
                self.body.append(f"relabel {label_line(identity, self.versions[identity][version])}")
            for receiver, name in versions[version]:
                number = self._emit(identity, receiver)
                if name is None:
                    self.body.append(f"arrive {number}")
                else:
                    self.numbers[name] = number

    def _emit(self, sender: int, receiver: int) -> int:
        if (sender, receiver) not in self.ports:
            raise DeskError(f"a message is sent from {self.network.name(sender)} to {self.network.name(receiver)}, and no edge joins them then")
        self.body.append(f"emit {sender} {self.ports[sender, receiver]}")
        self.emits += 1
        return self.emits

    def _step(self, step: Step) -> None:
        name = self.network.identity_of
        for one in step.restarts:
            self.body.append(f"restart {name(one)}")
            self.held = {place: version for place, version in self.held.items() if place[0] != name(one)}
        for one, said in step.labels.items():
            bits = node_label(one, said, self.trace, self.network)
            self.versions[name(one)].append(bits)
            self.body.append(f"relabel {label_line(name(one), bits)}")
        for sender, receiver, message in step.sends:
            sent = _Sent(name(sender), name(receiver), len(self.versions[name(sender)]) - 1)
            self.numbers[str(message)] = self._emit(sent.sender, sent.receiver)
            self.messages[str(message)] = sent
        for sender, receiver in step.hears:
            self.body.append(f"arrive {self._emit(name(sender), name(receiver))}")
            self._hold(_Sent(name(sender), name(receiver), len(self.versions[name(sender)]) - 1))
        for message in step.arrives:
            if str(message) not in self.messages:
                raise DeskError(f"no message {message} is under way")
            self.body.append(f"arrive {self.numbers[str(message)]}")
            self._hold(self.messages[str(message)])

    def _hold(self, sent: _Sent) -> None:
        place = (sent.receiver, sent.sender)
        self.held[place] = max(sent.version, self.held.get(place, 0))

    def _close(self) -> Input:
        self.current.text = self.head + "\n".join(["watch", *self.body, "end"]) + "\n"
        return self.current
