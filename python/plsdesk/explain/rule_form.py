"""Why a line of a rule set has not the form, or no sense."""

from __future__ import annotations

import re

from plsdesk.explain.explanation import Explanation, did_you_mean
from plsdesk.limits import MOST_CODED
from plsdesk.network import decimal
from plsdesk.schemes import operands

# what the operands of a word are: B a formula, N a number
_OPERANDS = {"eq": "NN", "lt": "NN", "le": "NN", "same": "BB", "both": "BB", "either": "BB", "not": "B", "all": "B", "any": "B",
             "add": "NN", "sum": "BN"}
_GIVES = {word: "N" if word in ("add", "sum") else "B" for word in _OPERANDS}
_ATOMS = ("id", "mark", "num", "degree", "pointed", "up.weight", "nb.weight", "nb.up")
_KINDS = {"B": "a formula", "N": "a number"}


def explain_rule_line(place: str, line: str, before: list[str]) -> Explanation | None:
    """What is wrong with the form of a line of a rules part, behind the lines `before` of the part."""
    word, _, rest = line.partition(" ")
    if word == "end":
        return Explanation(place, "a rule set has one field at least") if not before else None
    if word == "field":
        return _field_fault(place, rest, before)
    if not any(one.startswith("field ") for one in before):
        return Explanation(place, "a rule stands in front of all fields; a set begins with 1 to 8 fields")
    if sum(one.startswith("rule ") for one in before) >= 32:
        return Explanation(place, "there are more than 32 rules")
    if " " in rest:
        return Explanation(place, "there is a blank in the rule, which is written without blanks", f"rule {rest.replace(' ', '')}")
    if len(rest) > 4096:
        return Explanation(place, f"the rule has {len(rest)} characters, and 4096 are taken")
    if rest.count("(") != rest.count(")"):
        return Explanation(place, f"the parentheses do not close: {rest.count('(')} open and {rest.count(')')} close")
    what = expression_fault(rest, "B")
    return Explanation(place, what, "docs/RULES.md has the language of rules") if what else None


def _field_fault(place: str, rest: str, before: list[str]) -> Explanation | None:
    words = rest.split(" ")
    if any(one.startswith("rule ") for one in before):
        return Explanation(place, "a field stands behind a rule; all fields come first")
    if len(before) >= 8:
        return Explanation(place, "there are more than 8 fields")
    if len(words) != 2:
        return Explanation(place, f"`field` has 2 words behind it, and here are {len(words)}", "the form is `field NAME num` or `field NAME bit`")
    name, kind = words
    if name in ("weight", "up"):
        return Explanation(place, f"`{name}` is no name of a field: nb.{name} means something else")
    if not re.fullmatch("[a-z]{1,16}", name):
        return Explanation(place, f"`{name}` is no name of a field, which has 1 to 16 small letters and nothing else")
    return Explanation(place, f"a field is `num` or `bit`, not `{kind}`{did_you_mean(kind, ('num', 'bit'))}") if kind not in ("num", "bit") else None


def expression_fault(text: str, wanted: str) -> str | None:
    """Why a text is no formula (`B`) or no number (`N`) of the language, or None where it is one."""
    name, bracket, inside = text.partition("(")
    if not bracket:
        return _atom_fault(text, wanted)
    if name not in _OPERANDS or not inside.endswith(")"):
        return f"`{name}` is no word of the language of rules{did_you_mean(name, list(_OPERANDS))}"
    if _GIVES[name] != wanted:
        return f"`{name}` is {_KINDS[_GIVES[name]]}, and {_KINDS[wanted]} is due there"
    parts = operands(inside[:-1])
    due = _OPERANDS[name]
    if len(parts) != len(due):
        return f"`{name}` takes {len(due)} operand{'s' if len(due) > 1 else ''}, and here are {len(parts)}"
    return next((fault for part, kind in zip(parts, due) if (fault := expression_fault(part, kind)) is not None), None)


def _atom_fault(text: str, wanted: str) -> str | None:
    if not text:
        return "an operand is missing: nothing stands between two signs of the rule"
    known = text in _ATOMS or re.fullmatch(r"(my|up|nb)\.[a-z]{1,16}", text) is not None or decimal(text, MOST_CODED) is not None
    if not known:
        hint = "; a field is asked for as my.NAME, up.NAME or nb.NAME" if re.fullmatch("[a-z]+", text) else ""
        return f"`{text}` is no number of the language of rules{did_you_mean(text, list(_ATOMS))}{hint}"
    return f"`{text}` is a number, and a formula is due there, as eq({text},1)" if wanted == "B" else None


def sense_fault(expression: str, fields: list[str]) -> str | None:
    """Why a rule of the right form has no sense among these fields: an unknown field, or `nb` outside of all quantifiers."""
    for side, name in re.findall(r"\b(my|up|nb)\.([a-z]+)", expression):
        if name not in fields and (side, name) not in (("up", "weight"), ("nb", "weight"), ("nb", "up")):
            return f"`{side}.{name}` names no field of the set{did_you_mean(name, fields)}"
    if _outside(expression, False):
        return "`nb` stands outside of all quantifiers: only in all(..), any(..) and sum(..) is there a neighbour that is looked at"
    return None


def _outside(text: str, quantified: bool) -> bool:
    name, bracket, inside = text.partition("(")
    if not bracket:
        return text.startswith("nb.") and not quantified
    return any(_outside(part, quantified or name in ("all", "any", "sum")) for part in operands(inside[:-1]))
