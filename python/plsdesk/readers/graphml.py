"""GraphML: nodes and edges with data, whose keys are declared in front. Nodes are called by their ids."""

from __future__ import annotations

from dataclasses import dataclass, field
from html import escape
from xml.parsers import expat

from plsdesk.builder import NetworkBuilder
from plsdesk.fault import DeskError
from plsdesk.network import Network
from plsdesk.readers.attributes import add_edge, add_node, state_attributes
from plsdesk.readers.options import ReadOptions


@dataclass(slots=True)
class _Element:
    """A node or an edge: its line, its XML attributes, and its data by the names of their keys."""

    kind: str
    line: int
    attributes: dict[str, str]
    data: dict[str, str] = field(default_factory=dict)


@dataclass(slots=True)
class _Handler:
    """Takes what the XML parser tells."""

    parser: expat.XMLParserType
    keys: dict[str, str] = field(default_factory=dict)
    defaults: dict[tuple[str, str], str] = field(default_factory=dict)
    elements: list[_Element] = field(default_factory=list)
    key: str | None = None
    declared: tuple[str, str] | None = None
    text: str = ""

    def start(self, tag: str, attributes: dict[str, str]) -> None:
        tag = tag.rpartition(":")[2]
        self.text = ""
        if tag in ("node", "edge"):
            self.elements.append(_Element(tag, self.parser.CurrentLineNumber, attributes))
        elif tag == "key":
            self.keys[attributes.get("id", "")] = attributes.get("attr.name", attributes.get("id", ""))
            self.declared = (attributes.get("for", "all"), attributes.get("id", ""))
        elif tag == "data":
            self.key = attributes.get("key", "")
        elif tag == "hyperedge":
            raise DeskError("pls has no edges of more than two ends", f"line {self.parser.CurrentLineNumber}")

    def end(self, tag: str) -> None:
        tag = tag.rpartition(":")[2]
        if tag == "data" and self.key is not None and self.elements:
            self.elements[-1].data[self.keys.get(self.key, self.key)] = self.text.strip()
            self.key = None
        elif tag == "default" and self.declared is not None:
            self.defaults[self.declared[0], self.keys[self.declared[1]]] = self.text.strip()

    def characters(self, text: str) -> None:
        self.text += text


def read(text: str, builder: NetworkBuilder, options: ReadOptions) -> None:
    """Tells a builder the nodes and edges of a GraphML text."""
    parser = expat.ParserCreate()
    handler = _Handler(parser)
    parser.StartElementHandler = handler.start
    parser.EndElementHandler = handler.end
    parser.CharacterDataHandler = handler.characters
    try:
        parser.Parse(text.encode("utf-8"), True)
    except expat.ExpatError as error:
        raise DeskError(f"this is no XML: {expat.ErrorString(error.code)}", f"line {error.lineno}") from error
    declared = {element.attributes.get("id") for element in handler.elements if element.kind == "node"}
    for element in handler.elements:
        place = f"line {element.line}"
        kinds = {kind: value for (scope, kind), value in handler.defaults.items() if scope in (element.kind, "all")}
        data = kinds | element.data
        if element.kind == "node":
            add_node(builder, _attribute(element, "id"), data, place, options)
        else:
            ends = (_attribute(element, "source"), _attribute(element, "target"))
            for end in ends:
                if end not in declared:
                    raise DeskError(f"no node has the id {end}", place)
            add_edge(builder, ends, data, place, options)


def _attribute(element: _Element, name: str) -> str:
    if name not in element.attributes:
        raise DeskError(f"the {element.kind} has no attribute `{name}`", f"line {element.line}")
    return element.attributes[name]


_HEAD = """<?xml version="1.0" encoding="utf-8"?>
<graphml xmlns="http://graphml.graphdrawing.org/xmlns">
  <key id="weight" for="edge" attr.name="weight" attr.type="long"/>
  <key id="pointer" for="node" attr.name="pointer" attr.type="string"/>
  <key id="mark" for="node" attr.name="mark" attr.type="long"/>
  <key id="num" for="node" attr.name="num" attr.type="long"/>
  <graph edgedefault="undirected">"""


def write(network: Network) -> str:
    """The network as GraphML: the id of a node is its name."""
    lines = [_HEAD]
    for node in network.nodes:
        data = "".join(f'<data key="{what}">{escape(value)}</data>' for what, value in state_attributes(network, node).items())
        lines.append(f'    <node id="{escape(str(network.name(node.identity)))}">{data}</node>')
    for one, other, weight in network.edges():
        ends = f'source="{escape(str(network.name(one)))}" target="{escape(str(network.name(other)))}"'
        lines.append(f'    <edge {ends}><data key="weight">{weight}</data></edge>')
    lines.append("  </graph>\n</graphml>\n")
    return "\n".join(lines)
