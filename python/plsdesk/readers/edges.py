"""Edge lists: a line an edge, `A B` or `A B WEIGHT`, and states in lines of their own.

`A -> B` says that A points at B, `A mark M` and `A num N` say A's mark and number, `A` alone is a node that
need not have an edge. What stands behind `#` is a comment. The weight may also be a dictionary such as
`{'weight': 5}`, as networkx writes it.
"""

from __future__ import annotations

import ast

from plsdesk.builder import NetworkBuilder
from plsdesk.fault import DeskError
from plsdesk.network import Network
from plsdesk.readers.attributes import add_edge, state_attributes
from plsdesk.readers.options import ReadOptions

_TOO_MANY = "an edge is two nodes and at most a weight"


def read(text: str, builder: NetworkBuilder, options: ReadOptions) -> None:
    """Tells a builder all that an edge list says."""
    is_plain = not any(sign in text for sign in ('"', ",", ":", "->"))
    for number, line in enumerate(text.splitlines(), start=1):
        line = line.partition("#")[0]
        words = line.split()
        place = f"line {number}"
        if not is_plain and "{" not in line:
            check_words(words, place)
        if len(words) == 2:
            builder.edge(words[0], words[1], 1, place)
        elif len(words) == 1:
            builder.node(words[0], place)
        elif "{" in line:
            _dictionary_edge(line, builder, place, options)
        elif len(words) == 3:
            _three_words(words, builder, place, options)
        elif words:
            raise DeskError(f"{_TOO_MANY}; here are {len(words)} words", place,
                            "is this an adjacency list? then say --format adjacency")


def check_words(words: list[str], place: str) -> None:
    """Refuses words that are no names, as those of a line whose words are separated by commas."""
    for word in words:
        if word.startswith('"'):
            raise DeskError("a quotation mark begins here, and a name in a list is one word without blanks", place,
                            "gml, graphml, dot and csv have names with blanks")
        if "->" in word and word != "->":
            raise DeskError(f"`{word}` is one word, and a pointer is `A -> B` with blanks around the arrow", place)
        if word.endswith((",", ":")) or (len(words) == 1 and "," in word):
            raise DeskError("words are separated by blanks, and here stands a comma or colon", place,
                            "tr ',:' '  ' < FILE; or is this a table with a heading? then say --format csv")


def _three_words(words: list[str], builder: NetworkBuilder, place: str, options: ReadOptions) -> None:
    name, middle, last = words
    if middle == "->":
        builder.point(name, last, place)
    elif middle in ("mark", "num"):
        builder.value(name, middle, last, place)
    else:
        builder.edge(name, middle, 1 if options.unweighted else last, place)


def _dictionary_edge(line: str, builder: NetworkBuilder, place: str, options: ReadOptions) -> None:
    front, brace, rest = line.partition("{")
    ends = front.split()
    if len(ends) != 2:
        raise DeskError(_TOO_MANY, place)
    try:
        attributes = ast.literal_eval(brace + rest.strip())
    except (ValueError, SyntaxError) as error:
        raise DeskError("the attributes behind the edge are no dictionary", place) from error
    add_edge(builder, (ends[0], ends[1]), attributes, place, options)


def write(network: Network) -> str:
    """The edge list of a network. Names of more than one word, or with a `#` or a brace, are refused."""
    lines: list[str] = []
    for node in network.nodes:
        name = plain_name(network, node.identity)
        if not node.ports:
            lines.append(name)
    for one, other, weight in network.edges():
        end = "" if weight == 1 else f" {weight}"
        lines.append(f"{network.name(one)} {network.name(other)}{end}")
    for node in network.nodes:
        name = str(network.name(node.identity))
        for what, value in state_attributes(network, node).items():
            lines.append(f"{name} -> {value}" if what == "pointer" else f"{name} {what} {value}")
    return "\n".join(lines) + "\n"


def plain_name(network: Network, identity: int) -> str:
    """A node's name, which a list of words has to be able to hold."""
    name = str(network.name(identity))
    held = len(name.split()) == 1 and name.split()[0] == name and not any(sign in name for sign in "#{")
    try:
        check_words([name], "")
    except DeskError:
        held = False
    if not held or name == "->":
        raise DeskError("a list of words cannot hold this name", f"node {name!r}", "write gml, graphml, dot or csv")
    return name
