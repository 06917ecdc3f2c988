"""Labels parts: the bits of each node's label, and the number code that they are written in."""

from __future__ import annotations

from dataclasses import dataclass, field

from plsdesk.codes import from_hexadecimal, to_hexadecimal
from plsdesk.fault import DeskError
from plsdesk.limits import MOST_BITS, MOST_WORD
from plsdesk.network import decimal


@dataclass(slots=True)
class LabelText:
    """The labels of nodes, as texts of `0` and `1` by their identities, and their number code."""

    code: str
    bits: dict[int, str] = field(default_factory=dict)


def parse_labels(text: str) -> LabelText:
    """The labels of the first labels part in a text; parts in front of it are passed over."""
    labels: LabelText | None = None
    for place, line in enumerate(text.split("\n"), start=1):
        if labels is None:
            if line in ("labels", "labels delta"):
                labels = LabelText("delta" if line.endswith("delta") else "gamma")
        elif line == "end":
            return labels
        else:
            words = line.split(" ")
            identity, bits = _label(words, place)
            labels.bits[identity] = bits
    raise DeskError("there is no labels part" if labels is None else "the labels part has no line `end`")


def _label(words: list[str], place: int) -> tuple[int, str]:
    identity = decimal(words[1], MOST_WORD) if len(words) == 4 and words[0] == "label" else None
    length = decimal(words[2], MOST_BITS) if identity is not None else None
    if identity is None or length is None:
        raise DeskError("this is no line of a labels part", f"line {place}")
    try:
        return identity, from_hexadecimal(length, words[3])
    except DeskError as error:
        raise DeskError(error.what, f"line {place}") from error


def label_line(identity: int, bits: str) -> str:
    """The words of a label line, or of an edit or event that gives a label, behind its first word."""
    return f"{identity} {len(bits)} {to_hexadecimal(bits)}"


def labels_text(labels: LabelText) -> str:
    """The labels part that `pls` reads."""
    heading = "labels delta" if labels.code == "delta" else "labels"
    lines = [f"label {label_line(identity, bits)}" for identity, bits in labels.bits.items()]
    return "\n".join([heading, *lines, "end"]) + "\n"
