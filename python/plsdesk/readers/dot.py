"""DOT, the language of Graphviz: nodes, edges and chains of edges with attributes, in graphs and digraphs.

An edge is a link whatever its arrow; that a node points at a neighbour is said by its attribute `pointer`.
Subgraphs are read through, and ports of nodes (`a:n`) are passed over.
"""

from __future__ import annotations

import re
from collections.abc import Iterator
from dataclasses import dataclass, field

from plsdesk.builder import NetworkBuilder
from plsdesk.fault import DeskError
from plsdesk.network import Network
from plsdesk.readers.attributes import add_edge, add_node, state_attributes
from plsdesk.readers.options import ReadOptions

_TOKEN = re.compile(r'\s+|//[^\n]*|^\#[^\n]*|/\*.*?\*/|(?P<edge>->|--)|(?P<sign>[{}\[\];,=:])|"(?P<text>(?:[^"\\]|\\.)*)"'
                    r'|(?P<word>-?(?:\.\d+|\d+(?:\.\d*)?)|[^\W\d]\w*)|(?P<html><(?:[^<>]|<[^<>]*>)*>)', re.DOTALL | re.MULTILINE)


@dataclass(frozen=True, slots=True)
class _Token:
    kind: str
    text: str
    line: int

    def is_sign(self, sign: str) -> bool:
        return self.kind in ("sign", "edge") and self.text == sign

    def is_name(self) -> bool:
        return self.kind in ("word", "text")


@dataclass(slots=True)
class _Parser:
    """Reads one graph, and tells the builder each edge as it comes and each node at the end."""

    tokens: list[_Token]
    builder: NetworkBuilder
    options: ReadOptions
    place: int = 0
    nodes: dict[str, tuple[dict[str, str], int]] = field(default_factory=dict)

    def token(self) -> _Token:
        if self.place >= len(self.tokens):
            raise DeskError("the text ends before the graph is closed", f"line {self.tokens[-1].line if self.tokens else 1}")
        return self.tokens[self.place]

    def take(self) -> _Token:
        token = self.token()
        self.place += 1
        return token

    def take_sign(self, sign: str) -> bool:
        if self.place < len(self.tokens) and self.tokens[self.place].is_sign(sign):
            self.place += 1
            return True
        return False

    def name(self, what: str) -> _Token:
        token = self.take()
        if not token.is_name():
            raise DeskError(f"{what} is due here, not `{token.text}`", f"line {token.line}")
        return token

    def graph(self) -> None:
        token = self.take()
        if token.text.lower() == "strict":
            token = self.take()
        if token.text.lower() not in ("graph", "digraph"):
            raise DeskError("a DOT text begins with `graph` or `digraph`", f"line {token.line}")
        if self.token().is_name():
            self.take()
        if not self.take_sign("{"):
            raise DeskError("`{` is due here", f"line {self.token().line}")
        self.statements({}, {})
        for name, (attributes, line) in self.nodes.items():
            add_node(self.builder, name, attributes, f"line {line}", self.options)

    def statements(self, node_defaults: dict[str, str], edge_defaults: dict[str, str]) -> list[str]:
        """The statements up to the closing brace; gives the names of the nodes that stand in them."""
        inside: list[str] = []
        while not self.take_sign("}"):
            if self.take_sign(";"):
                continue
            token = self.token()
            if token.kind == "word" and token.text.lower() in ("graph", "node", "edge"):
                self.take()
                said = self.attributes()
                {"node": node_defaults, "edge": edge_defaults}.get(token.text.lower(), {}).update(said)
            elif token.is_name() and self.place + 1 < len(self.tokens) and self.tokens[self.place + 1].is_sign("="):
                self.place += 2
                self.take()
            else:
                inside.extend(self.chain(node_defaults, edge_defaults))
        return inside

    def chain(self, node_defaults: dict[str, str], edge_defaults: dict[str, str]) -> list[str]:
        """A node, or edges `a -- b -- c` of which each end is a node or a subgraph."""
        line = self.token().line
        ends = [self.end(node_defaults, edge_defaults)]
        while self.place < len(self.tokens) and self.tokens[self.place].kind == "edge":
            self.place += 1
            ends.append(self.end(node_defaults, edge_defaults))
        attributes = self.attributes()
        if len(ends) == 1:
            if len(ends[0]) == 1:
                self.nodes[ends[0][0]][0].update(attributes)
            return ends[0]
        for left, right in zip(ends, ends[1:]):
            for one in left:
                for other in right:
                    add_edge(self.builder, (one, other), edge_defaults | attributes, f"line {line}", self.options)
        return [name for end in ends for name in end]

    def end(self, node_defaults: dict[str, str], edge_defaults: dict[str, str]) -> list[str]:
        if self.token().text.lower() == "subgraph" and self.token().kind == "word":
            self.take()
            if self.token().is_name():
                self.take()
        if self.take_sign("{"):
            return self.statements(dict(node_defaults), dict(edge_defaults))
        token = self.name("a node")
        while self.take_sign(":"):
            self.name("the port of a node")
        if token.text not in self.nodes:
            self.nodes[token.text] = (dict(node_defaults), token.line)
            self.builder.node(token.text, f"line {token.line}")
        return [token.text]

    def attributes(self) -> dict[str, str]:
        said: dict[str, str] = {}
        while self.take_sign("["):
            while not self.take_sign("]"):
                key = self.name("an attribute").text
                said[key] = self.take().text if self.take_sign("=") else "true"
                if not self.take_sign(","):
                    self.take_sign(";")
        return said


def read(text: str, builder: NetworkBuilder, options: ReadOptions) -> None:
    """Tells a builder the nodes and edges of the first graph of a DOT text."""
    _Parser(list(_tokens(text)), builder, options).graph()


def _tokens(text: str) -> Iterator[_Token]:
    line, place = 1, 0
    while place < len(text):
        match = _TOKEN.match(text, place)
        if match is None:
            raise DeskError(f"`{text[place]}` cannot stand here", f"line {line}")
        if match.lastgroup is not None:
            word = match[match.lastgroup]
            yield _Token(match.lastgroup, word.replace('\\"', '"') if match.lastgroup == "text" else word, line)
        line += match[0].count("\n")
        place = match.end()


def quoted(text: str) -> str:
    """A name or value between quotation marks."""
    return '"' + text.replace('"', '\\"') + '"'


def write(network: Network) -> str:
    """The network as a DOT graph: weights and states are attributes, and no colour or place is said."""
    lines = ["graph network {"]
    for node in network.nodes:
        said = [f"{what}={quoted(value)}" for what, value in state_attributes(network, node).items()]
        end = f" [{', '.join(said)}]" if said else ""
        lines.append(f"  {quoted(str(network.name(node.identity)))}{end};")
    for one, other, weight in network.edges():
        lines.append(f"  {quoted(str(network.name(one)))} -- {quoted(str(network.name(other)))} [weight={weight}];")
    lines.append("}\n")
    return "\n".join(lines)
