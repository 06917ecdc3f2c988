"""The parts of an input: which command reads which, and the lines that may stand in each."""

from __future__ import annotations

from dataclasses import dataclass

from plsdesk.limits import MOST_BITS, MOST_NUMBER, MOST_WORD

# the kinds of words in a line, and the greatest number of each kind
MOST = {"ID": MOST_WORD, "A": MOST_WORD, "B": MOST_WORD, "NBR": MOST_WORD, "WEIGHT": MOST_WORD, "MARK": MOST_WORD, "PORT": MOST_WORD,
        "K": MOST_WORD, "UP": MOST_WORD, "NUM": MOST_NUMBER, "LEN": MOST_BITS}

LINES: dict[str, dict[str, tuple[str, ...]]] = {
    "network": {"node": ("ID", "UP", "MARK", "NUM"), "port": ("NBR", "WEIGHT")},
    "labels": {"label": ("ID", "LEN", "HEX")},
    "schedule": {"emit": ("ID", "PORT"), "arrive": ("K",), "restart": ("ID",)},
    "edits": {"state": ("ID", "UP", "MARK", "NUM"), "weight": ("A", "B", "WEIGHT"), "link": ("A", "B", "WEIGHT"), "unlink": ("A", "B"),
              "join": ("ID", "MARK", "NUM"), "leave": ("ID",), "label": ("ID", "LEN", "HEX"), "round": ()},
    "watch": {"emit": ("ID", "PORT"), "arrive": ("K",), "restart": ("ID",), "relabel": ("ID", "LEN", "HEX"), "look": ()},
    "rules": {"field": ("NAME", "KIND"), "rule": ("EXPR",)},
}
HEADINGS = (*LINES, "labels delta")

READS: dict[str, tuple[str, ...]] = {
    "mark": ("network",), "bound": ("network",), "verify": ("network", "labels"), "convert": ("network", "labels"),
    "simulate": ("network", "labels", "schedule"), "recheck": ("network", "labels", "edits"), "watch": ("network", "labels", "watch"),
    "judge": ("network", "labels", "rules"), "splice": ("network", "labels"), "code": ("rules",),
}
READERS = {"schedule": "simulate", "edits": "recheck", "watch": "watch", "rules": "judge, code or splice without a scheme",
           "labels": "verify, convert, splice, simulate, recheck, watch or judge", "network": "every command but code, rules and trial"}


def parts_of(words: list[str]) -> tuple[str, ...]:
    """The parts that a command reads, in their order."""
    if words[0] == "splice" and len(words) == 1:
        return ("network", "labels", "rules")
    return READS.get(words[0], ())


@dataclass(slots=True)
class Standing:
    """Where a line stands: the part that it is in, or the part whose heading is due, or behind all parts.

    `first` is the number of the part's heading, or of the line where it is due; `before` has the lines of the
    part in front of the line, its heading left out.
    """

    part: str | None
    heading_due: bool
    first: int
    before: list[str]
    part_in_front: str | None = None


def standing(lines: list[str], number: int, parts: tuple[str, ...]) -> Standing:
    """Where line `number`, counted from 1, stands in an input whose lines in front of it have the form."""
    place = 0  # of the part that is read or due
    inside = False
    first = 1
    for at, line in enumerate(lines[:number - 1], start=1):
        if not inside:
            inside, first = True, at
        elif line == "end":
            inside, first = False, at + 1
            place += 1
    part = parts[place] if place < len(parts) else None
    before = lines[first:number - 1] if inside else []
    return Standing(part, not inside, first, before, parts[place - 1] if place else None)
