"""GML: nodes with an `id` and perhaps a `label`, edges with `source` and `target`, and attributes of both.

A node is called by its label where all labels differ, else by its id. Parts that say nothing of nodes and
edges, as coordinates do, are passed over.
"""

from __future__ import annotations

import html
import re
from collections.abc import Iterator
from dataclasses import dataclass, field

from plsdesk.builder import NetworkBuilder
from plsdesk.fault import DeskError
from plsdesk.network import Network
from plsdesk.readers.attributes import add_edge, add_node, state_attributes
from plsdesk.readers.options import ReadOptions

_TOKEN = re.compile(r'\s*(?:#[^\n]*|(?P<open>\[)|(?P<close>\])|"(?P<text>[^"]*)"|(?P<word>[^\s\[\]"]+))')


@dataclass(slots=True)
class _Block:
    """A list in brackets: the line where it begins, its plain values by their keys, and the lists in it."""

    line: int
    values: dict[str, str] = field(default_factory=dict)
    blocks: list[tuple[str, "_Block"]] = field(default_factory=list)


def read(text: str, builder: NetworkBuilder, options: ReadOptions) -> None:
    """Tells a builder the nodes and edges of the first graph of a GML text."""
    top = _blocks(_tokens(text))
    graph = next((block for key, block in top.blocks if key == "graph"), None)
    if graph is None:
        raise DeskError("there is no `graph [ .. ]`", "line 1")
    nodes = [block for key, block in graph.blocks if key == "node"]
    names = _names(nodes)
    labels = set(names.values())

    def pointed(target: object) -> str:
        """The name of the node that a pointer says by its name or by its id."""
        return str(target) if str(target) in labels else names.get(str(target), str(target))

    for block in nodes:
        add_node(builder, names[block.values["id"]], block.values, f"line {block.line}", options, pointed)
    for key, block in graph.blocks:
        if key != "edge":
            continue
        place = f"line {block.line}"
        ends = [_end(block, end, names, place) for end in ("source", "target")]
        add_edge(builder, (ends[0], ends[1]), block.values, place, options)


def _names(nodes: list[_Block]) -> dict[str, str]:
    for block in nodes:
        if "id" not in block.values:
            raise DeskError("a node has no `id`", f"line {block.line}")
    ids = [block.values["id"] for block in nodes]
    if len(set(ids)) < len(ids):
        twice = next(block for place, block in enumerate(nodes) if block.values["id"] in ids[:place])
        raise DeskError(f"the id {twice.values['id']} is there twice", f"line {twice.line}")
    labels = [block.values.get("label", "").strip() for block in nodes]
    differ = all(labels) and len(set(labels)) == len(labels)
    return dict(zip(ids, labels if differ else ids))


def _end(block: _Block, end: str, names: dict[str, str], place: str) -> str:
    node = block.values.get(end)
    if node is None:
        raise DeskError(f"an edge has no `{end}`", place)
    if node not in names:
        raise DeskError(f"no node has the id {node}", place)
    return names[node]


def _tokens(text: str) -> Iterator[tuple[str, str, int]]:
    """The kind, text and line of each token."""
    line, place = 1, 0
    for match in _TOKEN.finditer(text):
        if match.start() != place:
            break
        place = match.end()
        if match.lastgroup is not None:
            start = match.start(match.lastgroup)
            yield match.lastgroup, match[match.lastgroup], line + text.count("\n", match.start(), start)
        line += match[0].count("\n")
    if text[place:].strip():
        raise DeskError("a quotation mark is not closed", f"line {line}")


def _blocks(tokens: Iterator[tuple[str, str, int]]) -> _Block:
    open_blocks = [_Block(1)]
    key: str | None = None
    line = 1
    for kind, word, line in tokens:
        if kind == "close":
            if len(open_blocks) == 1 or key is not None:
                raise DeskError("this `]` closes nothing", f"line {line}")
            open_blocks.pop()
        elif key is None:
            if kind != "word":
                raise DeskError("a key is due here", f"line {line}")
            key = word
        elif kind == "open":
            block = _Block(line)
            open_blocks[-1].blocks.append((key, block))
            open_blocks.append(block)
            key = None
        else:
            open_blocks[-1].values[key] = html.unescape(word)
            key = None
    if len(open_blocks) > 1:
        raise DeskError(f"the `[` of line {open_blocks[-1].line} is not closed", f"line {line}")
    return open_blocks[0]


def _quoted(text: str) -> str:
    return '"' + text.replace("&", "&amp;").replace('"', "&quot;") + '"'


def write(network: Network) -> str:
    """The network as GML: the id of a node is its identity, its label its name."""
    lines = ["graph ["]
    for node in network.nodes:
        lines.append(f"  node [ id {node.identity} label {_quoted(str(network.name(node.identity)))}")
        for what, value in state_attributes(network, node).items():
            lines.append(f"    {what} {_quoted(value) if what == 'pointer' else value}")
        lines[-1] += " ]"
    lines.extend(f"  edge [ source {one} target {other} weight {weight} ]" for one, other, weight in network.edges())
    lines.append("]\n")
    return "\n".join(lines)
