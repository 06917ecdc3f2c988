"""Traces played by `pls`: as inputs of `recheck` or `watch`, cut at the limits and carried on."""

from __future__ import annotations

from collections.abc import Callable
from dataclasses import dataclass

from plsdesk.answers import Answer, Report, Status
from plsdesk.carried import Carried
from plsdesk.explain import explain
from plsdesk.fault import DeskError
from plsdesk.inputs import Input, recheck_inputs
from plsdesk.network import Network
from plsdesk.program import Program
from plsdesk.traces import Trace

Progress = Callable[[int, int], None]  # the number of the step that is done, and of all


@dataclass(slots=True)
class Moment:
    """What is so behind a step: the network, the labels, and what `pls` wrote. Step 0 is the start."""

    number: int
    name: str
    network: Network
    bits: dict[int, str]
    report: Report


def play(program: Program, trace: Trace, progress: Progress | None = None) -> list[Moment]:
    """Runs all inputs of a trace, and gives the moments in their order."""
    moments: list[Moment] = []
    inputs = Carried.of(trace).inputs() if trace.has_messages() else recheck_inputs(trace)
    for one in inputs:
        answer = program.run(one.words, one.text)
        _taken(answer, one)
        reports = answer.reports if one.starts else answer.reports[-len(one.moments):]
        moments.extend(Moment(*moment, report) for moment, report in zip(one.moments, reports))
        if progress is not None:
            progress(moments[-1].number, len(trace.steps))
    return moments


def _taken(answer: Answer, one: Input) -> None:
    if answer.status not in (Status.DONE, Status.NO):
        raise DeskError(f"pls answered `{answer.text.strip()}` to a part of the trace: {explain(answer, one.text.encode())[0].text()}")
