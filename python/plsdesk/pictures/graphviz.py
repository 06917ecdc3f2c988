"""Pictures as DOT, which Graphviz lays out where it is installed."""

from __future__ import annotations

import subprocess
from shutil import which

from plsdesk.fault import DeskError
from plsdesk.pictures.scene import DrawnEdge, DrawnNode, Scene
from plsdesk.readers.dot import quoted


def dot_picture(scene: Scene) -> str:
    """The DOT text of a scene: pointers are thick arrows, other edges grey lines; components stand apart."""
    apart = len(scene.components) > 1
    lines = ["digraph network {",
             "  layout=neato; overlap=false; splines=true; bgcolor=white" + ('; pack=32; packmode="graph"' if apart else ""),
             '  node [shape=circle, style=filled, fillcolor=white, fontname="Helvetica", fontsize=11, margin=0.03]',
             '  edge [fontname="Helvetica", fontsize=9, len=1.4, arrowsize=0.7]']
    if scene.note:
        lines.append(f"  label={quoted(scene.note)}")
    nodes = {node.identity: node for node in scene.nodes}
    for component in scene.components:
        if apart:
            lines.append(f'  subgraph "component {component[0]}" {{')
        lines.extend(("    " if apart else "  ") + _node(nodes[one]) for one in component)
        if apart:
            lines.append("  }")
    lines.extend("  " + _edge(edge) for edge in scene.edges)
    return "\n".join([*lines, "}"]) + "\n"


def _node(node: DrawnNode) -> str:
    label = quoted("\\n".join(word for word in (node.name, node.words) if word))
    mark = ", shape=doublecircle" if node.marked else ""
    return f'{node.identity} [label={label}, fillcolor="{node.colour}"{mark}]'


def _edge(edge: DrawnEdge) -> str:
    if edge.arrow or edge.back:
        one, other = (edge.one, edge.other) if edge.arrow else (edge.other, edge.one)
        return f"{one} -> {other} [label={edge.weight}, penwidth=1.6{', dir=both' if edge.arrow and edge.back else ''}]"
    return f"{edge.one} -> {edge.other} [label={edge.weight}, dir=none, color=gray50]"


def graphviz_svg(text: str) -> str:
    """The SVG that Graphviz makes of a DOT text."""
    program = which("dot")
    if program is None:
        raise DeskError("Graphviz is not installed", mend="leave --graphviz out: plsdesk draws SVG by itself")
    done = subprocess.run([program, "-Tsvg"], input=text, capture_output=True, text=True, check=False)
    if done.returncode:
        raise DeskError(f"Graphviz ended with the status {done.returncode}: {done.stderr.strip()}")
    return done.stdout
