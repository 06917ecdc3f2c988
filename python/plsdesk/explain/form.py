"""Why a line has not the form: `refused form at LINE`."""

from __future__ import annotations

import re

from plsdesk.explain.explanation import Explanation, did_you_mean
from plsdesk.explain.parts import HEADINGS, LINES, MOST, READERS, Standing, parts_of, standing
from plsdesk.explain.rule_form import explain_rule_line
from plsdesk.explain.words import plain_words
from plsdesk.network import decimal

_ANSWERS = ("no", "usage", "refused", "limit", "bound", "none", "rejecting", "trial")


def explain_form(words: list[str], text: bytes, number: int) -> Explanation:
    """What is wrong with line `number` of an input that `pls` refused with these words."""
    command = plain_words(words)
    place = f"line {number}"
    if not text:
        return Explanation(place, f"standard input is empty, and `{command[0]}` reads its input there",
                           f"pls {' '.join(words)} < FILE")
    lines = text.decode("utf-8", "replace").split("\n")
    here = standing(lines, number, parts_of(command))
    if number == len(lines) and lines[-1] == "":
        return _missing_line(place, here)
    line = lines[number - 1]
    return (_signs(place, line, number, len(lines)) or _heading(place, line, here, command) or _spacing(place, line)
            or _inside(place, line, here)
            or Explanation(place, f"`{_cut(line)}` is no line of the {here.part} part", "docs/FORMATS.md has the forms of lines"))


def _cut(line: str) -> str:
    return line if len(line) <= 40 else line[:40] + ".."


def _a(part: str) -> str:
    """The name of a part behind its article."""
    return f"an {part}" if part[0] in "aeiou" else f"a {part}"


def _missing_line(place: str, here: Standing) -> Explanation:
    if here.heading_due and here.part is not None:
        behind = f"behind the {here.part_in_front} part " if here.part_in_front else ""
        mend = "`pls mark` writes a labels part: put it behind the network, `cat network.txt labels.txt |`" if here.part == "labels" else \
            f"put the {here.part} part there"
        return Explanation(place, f"the input ends here, and {behind}the {here.part} part is due", mend)
    return Explanation(place, f"the input ends here, inside of the {here.part} part, which has no line `end`", "close the part with `end`")


def _signs(place: str, line: str, number: int, count: int) -> Explanation | None:
    """Signs that stand in no text of pls."""
    if line.startswith("\ufeff"):
        return Explanation(place, "a byte order mark (BOM) stands in front of the text", "sed '1s/^\\xef\\xbb\\xbf//' FILE")
    if line.endswith("\r"):
        return Explanation(place, "the line ends with CR LF, as on Windows, and not with a line feed alone", "tr -d '\\r' < FILE")
    if "\t" in line:
        return Explanation(place, "there is a tab in the line; words are separated by one blank", "tr '\\t' ' ' < FILE")
    if "\x00" in line:
        return Explanation(place, "there is a zero byte in the line: the file is UTF-16 or no text", "iconv -f UTF-16 -t ASCII FILE")
    if number == count:
        return Explanation(place, "the last line has no line feed at its end (missing line feed)", "echo >> FILE")
    return None


def _spacing(place: str, line: str) -> Explanation | None:
    if not line.strip():
        return Explanation(place, "the line is blank, and there are no blank lines", "sed '/^ *$/d' FILE")
    if "#" in line or line.lstrip().startswith("//"):
        return Explanation(place, "there is a comment in the line, and a text of pls has none", "sed 's/ *#.*//' FILE")
    if line != line.strip() or "  " in line:
        what = "two blanks stand between two words" if "  " in line.strip() else "a blank stands at an end of the line"
        return Explanation(place, f"{what}; words are separated by exactly one blank", "sed 's/  */ /g; s/^ //; s/ $//' FILE")
    if not line.isascii():
        sign = next(sign for sign in line if not sign.isascii())
        return Explanation(place, f"`{sign}` stands in the line, and a text of pls is ASCII")
    return None


def _heading(place: str, line: str, here: Standing, command: list[str]) -> Explanation | None:
    if not here.heading_due:
        return None
    first = line.split()[0] if line.split() else ""
    if first in _ANSWERS:
        return Explanation(place, f"`{_cut(line)}` is an answer of pls, not a part of an input",
                           "look at the answer of `pls mark` before it is put behind the network")
    if line.startswith(("{", "[", "<")):
        return Explanation(place, "this is JSON or XML, and pls reads neither", "`plsdesk import FILE` makes the text of a network")
    if line in HEADINGS:
        return _other_part(place, line, here, command)
    if here.part is None:
        return Explanation(place, f"the line stands behind the last part that `{command[0]}` reads ({', '.join(parts_of(command))})",
                           "cut the input there")
    if here.part == "network" and _is_edge(line):
        return Explanation(place, "this looks like a list of edges, and a network part begins with the line `network`",
                           "plsdesk import LIST -o network.txt")
    meant = did_you_mean(line, HEADINGS)
    return Explanation(place, f"the heading `{here.part}` is due here, not `{_cut(line)}`{meant}") if line.strip() else None


def _is_edge(line: str) -> bool:
    words = line.split()
    return 2 <= len(words) and all(word.isdecimal() for word in words) or (len(words) == 3 and words[1] == "->")


def _other_part(place: str, line: str, here: Standing, command: list[str]) -> Explanation:
    part = line.split()[0]
    if line == "labels delta" and here.part == "labels":
        return Explanation(place, f"`{command[0]}` reads labels in the gamma code alone", "mark them without `--code delta`")
    if part == here.part_in_front:
        return Explanation(place, f"a second {part} part begins here, and `{command[0]}` reads one")
    due = f"the {here.part} part is due here" if here.part else "nothing more is due here"
    return Explanation(place, f"{_a(part)} part begins here, which is a part of another command: `{command[0]}` reads "
                       f"{', '.join(parts_of(command))}, and {due}", f"{_a(part)} part is read by {READERS[part]}")


def _inside(place: str, line: str, here: Standing) -> Explanation | None:
    if here.part is None:
        return None
    words = line.split(" ")
    forms = LINES[here.part]
    if here.part == "rules" and words[0] in (*forms, "end"):
        return explain_rule_line(place, line, here.before)
    if line == "end":
        return _early_end(place, here)
    if words[0] not in forms:
        return _other_line(place, line, words[0], here.part)
    if words[0] == "port" and not here.before:
        return Explanation(place, "a port stands in front of all nodes; the line of its node comes first")
    form = forms[words[0]]
    if len(words) - 1 != len(form):
        return Explanation(place, f"`{words[0]}` has {len(form)} words behind it, and here are {len(words) - 1}",
                           f"the form is `{' '.join((words[0], *form))}`")
    faults = (_word_fault(place, kind, word, words) for kind, word in zip(form, words[1:]))
    return next((fault for fault in faults if fault is not None), None)


def _early_end(place: str, here: Standing) -> Explanation | None:
    if here.part == "network" and not here.before:
        return Explanation(place, "the network has no node, and one is due at least")
    last = {"edits": "round", "watch": "look"}.get(here.part or "")
    if last is not None:
        return Explanation(place, f"the last line in front of `end` has to be `{last}`, which asks for the verdicts",
                           f"put `{last}` in front of `end`")
    return None


def _other_line(place: str, line: str, word: str, part: str) -> Explanation:
    forms = LINES[part]
    instead = {("watch", "label"): "relabel", ("watch", "round"): "look", ("edits", "look"): "round", ("edits", "relabel"): "label",
               ("edits", "node"): "join or state", ("edits", "port"): "link"}.get((part, word))
    if instead is not None:
        return Explanation(place, f"`{word}` is no line of {_a(part)} part: there it is `{instead}`")
    if line in HEADINGS:
        return Explanation(place, f"{_a(word)} part begins here, and the {part} part in front of it has no line `end`", "close it with `end`")
    for other, lines in LINES.items():
        if word in lines:
            return Explanation(place, f"`{word}` is a line of {_a(other)} part, and stands here in {_a(part)} part",
                               f"{_a(other)} part is read by {READERS[other]}")
    if word.lower() in forms or word.lower() == "end":
        return Explanation(place, f"words are written in small letters (did you mean `{word.lower()}`?)")
    return Explanation(place, f"`{_cut(line)}` is no line of the {part} part{did_you_mean(word, [*forms, 'end'])}",
                       f"its lines begin with {', '.join(forms)} or end")


def _word_fault(place: str, kind: str, word: str, words: list[str]) -> Explanation | None:
    if kind == "HEX":
        return _digits_fault(place, word, int(words[-2]))
    if kind == "UP" and word == "-":
        return None
    if decimal(word, MOST[kind]) is not None:
        return None
    if kind == "UP" and word.lower() in ("none", "null", "nil", "-1", "_"):
        return Explanation(place, f"a node that points at nothing has the pointer `-`, not `{word}`")
    return Explanation(place, f"`{word}` is no {kind}: {_number_fault(word, MOST[kind])}")


def _number_fault(word: str, most: int) -> str:
    if not word:
        return "nothing stands there"
    if re.fullmatch(r"0\d+", word):
        return f"a number has no zero in front (`{word.lstrip('0') or '0'}`)"
    if re.fullmatch(r"[+-]\d+", word):
        return "a number has no sign, and none is below 0"
    if re.fullmatch(r"-?\d+[.,eE][\d+-]*", word):
        return "weights and all other numbers are whole, and this has a decimal point or an exponent"
    if word.isdecimal():
        return f"it is at most {most}"
    return f"a decimal from 0 to {most} is due there"


def _digits_fault(place: str, digits: str, length: int) -> Explanation | None:
    due = 2 * ((length + 7) // 8)
    if length == 0:
        return None if digits == "-" else Explanation(place, "a label of 0 bits has `-` where its digits would stand")
    if re.search("[A-F]", digits) and re.fullmatch("[0-9a-fA-F]+", digits):
        return Explanation(place, "the digits of a label are written in small letters, and here are upper-case digits",
                           f"write {digits.lower()}")
    if digits.startswith("0x"):
        return Explanation(place, "the digits of a label have no `0x` in front")
    if not re.fullmatch("[0-9a-f]+", digits):
        return Explanation(place, f"`{_cut(digits)}` are no hexadecimal digits")
    if len(digits) != due:
        return Explanation(place, f"{length} bits take {due} digits, two for each byte begun, and here are {len(digits)}")
    spare = due * 4 - length
    if int(digits[-2:], 16) & ((1 << spare) - 1):
        return Explanation(place, f"what the last byte has to spare, {spare} bits, has to be 0")
    return None
