"""Why words are `usage`."""

from __future__ import annotations

import re

from plsdesk.explain.explanation import Explanation, did_you_mean
from plsdesk.limits import MOST_DIAMETER, MOST_NAMES, MOST_NODES
from plsdesk.network import decimal
from plsdesk.schemes import SCHEMES, operands

WITH_SCHEME = ("mark", "verify", "simulate", "recheck", "watch", "bound", "convert")
COMMANDS = (*WITH_SCHEME, "splice", "judge", "code", "rules", "trial")
RULE_SETS = ("leader", "tree", "forest", "spt", "bipartite", "acyclic", "count")
FLAGS = {"--json": ("verify", "simulate", "judge"), "--code": ("mark", "bound")}
_JOINERS = ("and", "or", "map")


def explain_words(words: list[str]) -> Explanation:
    """What is wrong with words that `pls` answered `usage`."""
    if not words:
        return Explanation("", "no command is said", f"one of {', '.join(COMMANDS)} comes first, as in `pls mark tree < network.txt`")
    return _flag_fault(words) or _command_fault(words) or Explanation(
        "words", f"`{' '.join(words)}` is none of the commands of pls", "docs/FORMATS.md has their forms")


def _flag_fault(words: list[str]) -> Explanation | None:
    flags = [word for word in words if word.startswith("-")]
    if any(flag in ("-h", "--help", "--version") for flag in flags) or words == ["help"]:
        return Explanation("words", "pls has no help of its own", "`man docs/pls.1` or `plsdesk --help`")
    for flag in flags:
        if flag not in FLAGS:
            return Explanation(f"`{flag}`", f"this is no flag of pls{did_you_mean(flag, list(FLAGS))}",
                               "the flags are --json and --code gamma or delta; files come on standard input")
    if len(flags) > 1:
        return Explanation("words", "there is more than one flag, and at most one is taken")
    if "--code" in words:
        behind = words[words.index("--code") + 1:]
        if not behind or behind[0] not in ("gamma", "delta"):
            return Explanation("`--code`", "a number code stands behind it: gamma or delta", "as in `pls mark tree --code delta`")
    plain = plain_words(words)
    if flags and plain and plain[0] in COMMANDS and plain[0] not in FLAGS[flags[0]]:
        return _flag_elsewhere(flags[0], plain[0])
    return None


def _flag_elsewhere(flag: str, command: str) -> Explanation:
    takers = " and ".join(FLAGS[flag])
    if flag == "--code":
        mend = "the heading of the labels part says the code of labels that are read: `labels` or `labels delta`"
    elif command == "mark":
        mend = "`plsdesk decode` shows what labels say; labels have no JSON"
    else:
        mend = "leave the flag out"
    return Explanation(f"`{flag}`", f"`{command}` does not take {flag}, which stands with {takers}", mend)


def plain_words(words: list[str]) -> list[str]:
    """The words without flags and what belongs to them."""
    plain: list[str] = []
    skip = False
    for word in words:
        if not skip and not word.startswith("-"):
            plain.append(word)
        skip = word == "--code" and not skip
    return plain


def _command_fault(words: list[str]) -> Explanation | None:
    plain = plain_words(words)
    if not plain:
        return Explanation("words", "no command is said", f"one of {', '.join(COMMANDS)} comes first")
    command, behind = plain[0], plain[1:]
    if command not in COMMANDS:
        swapped = f"; the command comes first: `pls {behind[0]} {command}`" if behind and behind[0] in COMMANDS else ""
        return Explanation(f"`{command}`", f"this is no command of pls{did_you_mean(command, COMMANDS)}{swapped}",
                           f"the commands are {', '.join(COMMANDS)}")
    if len(behind) > 1:
        return _too_many_words(command, behind)
    if command in ("judge", "code"):
        return Explanation(f"`{behind[0]}`", f"`{command}` takes no scheme: it judges by the rules part of its input") if behind else None
    if not behind:
        return _no_operand(command) if command != "splice" else None
    if command == "rules":
        return _rules_fault(behind[0])
    if command == "trial":
        return _trial_fault(behind[0])
    return scheme_fault(behind[0])


def _too_many_words(command: str, behind: list[str]) -> Explanation:
    joined = "".join(behind)
    if any(word.endswith((",", "(")) or word.startswith((",", ")")) for word in behind):
        return Explanation("words", "there is a blank behind a comma or a parenthesis, and an expression is one word",
                           f"pls {command} '{joined}'")
    if any("." in word or "/" in word for word in behind):
        file = next(word for word in behind if "." in word or "/" in word)
        return Explanation(f"`{file}`", "pls takes no names of files: it reads standard input", f"pls {command} {behind[0]} < {file}")
    return Explanation("words", f"at most one word stands behind `{command}`, and here are {len(behind)}")


def _no_operand(command: str) -> Explanation:
    needs = {"rules": f"a name: {', '.join(RULE_SETS)}", "trial": "N:SEED, as in `pls trial 100:7`"}
    return Explanation(f"`{command}`", f"a word is missing behind `{command}`: "
                       f"{needs.get(command, f'a scheme, as in `pls {command} tree`; the schemes are ' + ', '.join(SCHEMES))}")


def _rules_fault(name: str) -> Explanation:
    if name in SCHEMES:
        return Explanation(f"`{name}`", f"`{name}` has no rule set: its rules go beyond the language of rules",
                           f"the names are {', '.join(RULE_SETS)}")
    return Explanation(f"`{name}`", f"this is no name of a rule set{did_you_mean(name, RULE_SETS)}", f"the names are {', '.join(RULE_SETS)}")


def _trial_fault(word: str) -> Explanation | None:
    count, colon, seed = word.partition(":")
    if colon and decimal(count, MOST_NODES) and decimal(seed, 2**31 - 2):
        return None
    return Explanation(f"`{word}`", f"trial takes N:SEED, two decimals: N from 1 to {MOST_NODES}, SEED from 1 to {2**31 - 2}",
                       "as in `pls trial 100:7`")


def scheme_fault(expression: str) -> Explanation | None:
    """What is wrong with an expression, or None where nothing is found."""
    place = f"`{expression}`"
    if re.search(r"\s", expression):
        return Explanation(place, "there is a blank behind a comma or elsewhere in the expression, which is written without blanks",
                           f"'{re.sub(chr(92) + 's', '', expression)}'")
    if expression.count("(") != expression.count(")"):
        return Explanation(place, f"the parentheses do not close: {expression.count('(')} open and {expression.count(')')} close")
    if ("." in expression or "/" in expression) and "(" not in expression:
        return Explanation(place, "this looks like the name of a file: a scheme comes here, and the file on standard input",
                           f"< {expression}")
    fault = _expression_fault(expression, False)
    if fault is not None:
        return fault
    names = len(re.findall(r"[a-z]+", re.sub(r"\b(and|or|map)\(", "(", expression)))
    if names > MOST_NAMES:
        return Explanation(place, f"there are too many names in the expression: {names}, and {MOST_NAMES} are taken",
                           "check the parts one by one, each with labels of its own")
    depth = _depth(expression)
    if depth > MOST_NAMES:
        return Explanation(place, f"the expression is {depth} deep, and {MOST_NAMES} is taken")
    return None


def _depth(expression: str) -> int:
    deepest = depth = 0
    for sign in expression:
        depth += (sign == "(") - (sign == ")")
        deepest = max(deepest, depth)
    return deepest + 1


def _expression_fault(expression: str, in_map: bool) -> Explanation | None:
    name, bracket, inside = expression.partition("(")
    place = f"`{expression}`"
    if not bracket:
        return _name_fault(name, in_map)
    if name not in _JOINERS or not inside.endswith(")"):
        return Explanation(place, f"`{name}` joins no schemes{did_you_mean(name, _JOINERS)}", "and(A,B), or(A,B) and map(P) do")
    if name == "map" and in_map:
        return Explanation(place, "a map stands in no other map")
    parts = operands(inside[:-1])
    due = 1 if name == "map" else 2
    if len(parts) != due:
        mend = f"nest them: {name}(A,{name}(B,C))" if len(parts) > due else ""
        return Explanation(place, f"`{name}` takes {due} operand{'s' if due > 1 else ''}, and here are {len(parts)}", mend)
    return next((fault for part in parts if (fault := _expression_fault(part, in_map or name == "map")) is not None), None)


def _name_fault(name: str, in_map: bool) -> Explanation | None:
    place = f"`{name}`"
    if name in SCHEMES:
        return None
    front, colon, number = name.partition(":")
    if front == "diameter":
        if not in_map:
            return Explanation(place, "`diameter:K` is a property, not a scheme: it stands inside of `map` alone", f"map({name})")
        return None if colon and decimal(number, MOST_DIAMETER) is not None else Explanation(
            place, f"K in `diameter:K` is a decimal from 0 to {MOST_DIAMETER}")
    if name == "bridgeless":
        return None if in_map else Explanation(place, "`bridgeless` is a property, not a scheme: it stands inside of `map` alone",
                                               "map(bridgeless)")
    if name.lower() != name and name.lower() in SCHEMES:
        return Explanation(place, f"names are written in small letters (did you mean `{name.lower()}`?)")
    if not name:
        return Explanation("words", "an operand is missing: nothing stands between two signs of the expression")
    return Explanation(place, f"this is no scheme{did_you_mean(name, SCHEMES)}", f"the schemes are {', '.join(SCHEMES)}, map(P), and(A,B), or(A,B)")
