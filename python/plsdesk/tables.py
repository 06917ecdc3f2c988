"""The table of a trace: for each step who notices and by which rule, who waits, and who holds an old label."""

from __future__ import annotations

from plsdesk.answers import Verdict
from plsdesk.network import Network
from plsdesk.running import Moment

HEADINGS = ("step", "what happens", "notices", "accepts again", "waits", "holds old labels of")
_MOST_NAMES = 6  # names in a cell before the rest is counted


def rows_of(moments: list[Moment]) -> list[tuple[str, ...]]:
    """The rows of the table, as texts. Only nodes whose verdict changed since the step before are named."""
    rows: list[tuple[str, ...]] = []
    before: dict[int, Verdict] = {}
    for moment in moments:
        now = moment.report.verdicts
        changed = [one for one, verdict in now.items() if before.get(one, Verdict("accept")) != verdict]
        notices = [f"{moment.network.name(one)} (rule {_rule(now[one])})" for one in changed
                   if now[one].kind == "reject" and _rule_of(before.get(one)) != _rule_of(now[one])]
        again = [str(moment.network.name(one)) for one in changed if now[one].kind == "accept" and one in before and before[one].kind != "accept"]
        waits = [str(moment.network.name(one)) for one in changed if now[one].kind == "waiting" and
                 (one not in before or before[one].kind != "waiting")]
        stale = [_stale(moment.network, one, now[one]) for one in changed
                 if now[one].stale and (one not in before or before[one].stale != now[one].stale)]
        rows.append((str(moment.number), moment.name, *map(_cell, (notices, again, waits, stale))))
        before = now
    return rows


def _rule_of(verdict: Verdict | None) -> tuple[int, int] | None:
    return None if verdict is None or verdict.kind != "reject" else (verdict.leaf, verdict.rule)


def _rule(verdict: Verdict) -> str:
    return str(verdict.rule) if verdict.leaf == 1 else f"{verdict.rule} of part {verdict.leaf}"


def _stale(network: Network, identity: int, verdict: Verdict) -> str:
    ports = network.by_identity()[identity].ports
    return f"{network.name(identity)}: " + " ".join(str(network.name(ports[port].neighbour)) for port in verdict.stale)


def _cell(names: list[str]) -> str:
    shown = ", ".join(names[:_MOST_NAMES])
    return shown + (f" and {len(names) - _MOST_NAMES} more" if len(names) > _MOST_NAMES else "")


def table(moments: list[Moment]) -> str:
    """The table as text, with a last line that says how it ends. Columns that stay empty are left out."""
    rows = rows_of(moments)
    used = [place for place in range(len(HEADINGS)) if place < 2 or any(row[place] for row in rows)]
    cells = [[one[place] for place in used] for one in (HEADINGS, *rows)]
    widths = [max(len(row[place]) for row in cells) for place in range(len(used))]
    lines = ["  ".join(cell.ljust(width) for cell, width in zip(row, widths)).rstrip() for row in cells]
    return "\n".join([*lines, _end(moments[-1])]) + "\n"


def _end(moment: Moment) -> str:
    report = moment.report
    rejecting, waiting, stale = len(report.ids("reject")), len(report.ids("waiting")), len(report.stale())
    accept = len(report.verdicts) - rejecting - waiting
    return f"at the end {accept} nodes accept, {rejecting} reject, {waiting} wait, and {stale} hold old labels"
