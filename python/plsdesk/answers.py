"""What `pls` answers, as values: verdicts, reports, rounds, looks and refusals."""

from __future__ import annotations

import json
from dataclasses import dataclass, field
from enum import Enum
from typing import Any

from plsdesk.fault import DeskError


class Status(Enum):
    """The exit status of the program."""

    DONE = 0
    NO = 1
    USAGE = 2
    REFUSED = 3
    READ_FAULT = 4
    WRITE_FAULT = 5
    NO_MEMORY = 6
    LIMIT = 7


@dataclass(frozen=True, slots=True)
class Verdict:
    """What became of a node: it accepts, rejects by a rule of a leaf, or waits for messages at ports.

    `ports` are those at which a waiting node has not heard; `stale` those at which a node that decided holds
    an old label.
    """

    kind: str  # "accept", "reject" or "waiting"
    leaf: int = 0
    rule: int = 0
    ports: tuple[int, ...] = ()
    stale: tuple[int, ...] = ()


@dataclass(frozen=True, slots=True)
class Component:
    """A component in a report: its smallest identity, how many nodes it has, how many of them reject or wait."""

    identity: int
    nodes: int
    rejecting: int
    waiting: int


@dataclass(slots=True)
class Report:
    """The verdicts of all nodes at one time, the components where there are several, and the words of the last line."""

    verdicts: dict[int, Verdict] = field(default_factory=dict)
    components: list[Component] = field(default_factory=list)
    last: str = ""

    def ids(self, kind: str) -> list[int]:
        """The nodes whose verdict is of this kind, in order."""
        return [identity for identity, verdict in self.verdicts.items() if verdict.kind == kind]

    def stale(self) -> list[int]:
        """The nodes that hold an old label, in order."""
        return [identity for identity, verdict in self.verdicts.items() if verdict.stale]


@dataclass(slots=True)
class Answer:
    """An answer of the program: the words that were run, its status, its text, and the reports in it."""

    words: list[str]
    status: Status
    text: str
    reports: list[Report] = field(default_factory=list)

    def refusal(self) -> tuple[str, int] | None:
        """The kind of a refusal, `form` or a number, and its place, a line or an identity; None for other answers."""
        words = self.text.split()
        return (words[1], int(words[3])) if self.status is Status.REFUSED and len(words) == 4 else None


def parse_answer(words: list[str], status: int, text: str) -> Answer:
    """The answer that a run of these words ended with. A status below 0 or above 7 is no answer of `pls`."""
    if not 0 <= status <= 7:
        raise DeskError(f"the program ended with the status {status}, which is none of pls")
    answer = Answer(words, Status(status), text)
    if text.startswith("{"):
        answer.reports.append(_json_report(json.loads(text)))
    elif text.startswith("node "):
        answer.reports.extend(parse_reports(text))
    return answer


def parse_report(text: str) -> Report:
    """The last report of a text that `pls` wrote, plain or as JSON."""
    try:
        reports = [_json_report(json.loads(text))] if text.startswith("{") else parse_reports(text)
        return reports[-1]
    except (ValueError, LookupError, TypeError) as error:
        raise DeskError("this is no report of pls", mend="verify, simulate, recheck, watch and judge write reports") from error


def parse_reports(text: str) -> list[Report]:
    """The reports of a text as `verify`, `simulate`, `judge`, `recheck` and `watch` write it."""
    reports = [Report()]
    for line in text.splitlines():
        words = line.split()
        if words[0] == "node":
            reports[-1].verdicts[int(words[1])] = _verdict(words[2:])
        elif words[0] == "component":
            waiting = int(words[7]) if len(words) > 6 else 0
            reports[-1].components.append(Component(int(words[1]), int(words[3]), int(words[5]), waiting))
        else:
            reports[-1].last = line
            reports.append(Report())
    return reports[:-1]


def _verdict(words: list[str]) -> Verdict:
    if words[0] == "waiting":
        return Verdict("waiting", ports=tuple(map(int, words[1:])))
    front, _, behind = " ".join(words).partition(" stale ")
    stale = tuple(map(int, behind.split()))
    decided = front.split()
    if decided[0] == "reject":
        return Verdict("reject", int(decided[1]), int(decided[2]), stale=stale)
    return Verdict("accept", stale=stale)


def _json_report(said: dict[str, Any]) -> Report:
    verdicts = {node["id"]: Verdict(node["verdict"], node.get("leaf", 0), node.get("rule", 0), tuple(node.get("ports", ())))
                for node in said["nodes"]}
    parts = [Component(one["id"], one["nodes"], one["rejecting"], one["waiting"]) for one in said.get("components", ())]
    return Report(verdicts, parts, f"rejecting {said['rejecting']} waiting {said['waiting']}")
