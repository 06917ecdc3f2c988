"""Pictures as SVG, laid out and drawn by the desk itself."""

from __future__ import annotations

import math
from html import escape

from plsdesk.pictures.curves import Curve, Outline, bend_of, curve_of
from plsdesk.pictures.layout import MARGIN, RADIUS, Places, Point, half_width, places_of
from plsdesk.pictures.scene import COLOURS, DrawnEdge, DrawnNode, Scene
from plsdesk.pictures.words import Spot, spots_of

_BELOW = 15.0  # from a line of words to the next
_WEIGHT = 18.0  # half of the room for the weight of an edge
_BESIDE = 6.0  # from words to the side of a picture that they have widened
_FRAGMENTS = ("#4c78a8", "#f58518", "#54a24b", "#b279a2", "#9d755d", "#72b7b2", "#e45756", "#eeca3b")
_MEANINGS = {"reject": "rejects", "waiting": "waits", "stale": "holds an old label"}
_STYLE = ("text{font-family:Helvetica,Arial,sans-serif;text-anchor:middle;fill:#222}.n{font-size:12px}.w{font-size:11px;fill:#a01010}"
          ".e{font-size:10px;fill:#555;paint-order:stroke;stroke:#fff;stroke-width:3px}.k{font-size:12px;text-anchor:start}")


def svg_picture(scene: Scene, places: Places | None = None, unique: str = "") -> str:
    """The SVG text of a scene. `places` are those of another picture that this one is to be like; `unique` makes
    its inner name differ from those of other pictures on one page."""
    if places is None or any(node.identity not in places for node in scene.nodes):
        places = places_of(scene)
    kinds = [kind for kind in _MEANINGS if any(node.colour == COLOURS[kind] for node in scene.nodes)]
    outlines = {node.identity: Outline(places[node.identity], half_width(node.name)) for node in scene.nodes}
    bends = [bend_of(edge, places) for edge in scene.edges]
    curves = [curve_of(edge, outlines, bend) for edge, bend in zip(scene.edges, bends)]
    sides, height = _sides(scene, places, bends), _height(scene, places, bends)
    spots = spots_of(scene, outlines, curves, sides)
    left = math.floor(min([sides[0], *(spot.box.left - _BESIDE for spot in spots.values())]))
    right = max([sides[1], *(spot.box.right + _BESIDE for spot in spots.values())])
    line = max(20.0, right / 36)  # of the legend, which grows with the picture
    colours = _fragment_colours(scene)
    parts = _head(left, right - left, height + line * (len(kinds) + bool(scene.note)), unique)
    parts.extend(_edges(scene, curves, colours, unique))
    parts.extend(_node(node, *places[node.identity], colours.get(node.level, "#222"), spots.get(node.identity)) for node in scene.nodes)
    parts.extend(_legend(kinds, scene.note, (left, height), line))
    return "\n".join([*parts, "</svg>"]) + "\n"


def _sides(scene: Scene, places: Places, bends: list[Point]) -> tuple[float, float]:
    """The left and the right side of a picture, without the words of its nodes."""
    middles = [(places[edge.one][0] + places[edge.other][0] + 2 * bend[0]) / 4 for edge, bend in zip(scene.edges, bends)]
    room = _WEIGHT * scene.has_weights()
    right = max([places[node.identity][0] + half_width(node.name) for node in scene.nodes] + [260]) + MARGIN
    return min([0.0, *(middle - room for middle in middles)]), max([right, *(middle + room for middle in middles)])


def _height(scene: Scene, places: Places, bends: list[Point]) -> float:
    """The height of a picture, without its legend."""
    return max([y for _, y in places.values()] + [(places[edge.one][1] + bend[1]) / 2 for edge, bend in zip(scene.edges, bends)]) + MARGIN + _BELOW


def _head(left: int, width: float, height: float, unique: str) -> list[str]:
    moved = f' x="{left}"' if left else ""
    return [f'<svg xmlns="http://www.w3.org/2000/svg" viewBox="{left} 0 {width:.0f} {height:.0f}" width="{width:.0f}" height="{height:.0f}">',
            f"<style>{_STYLE}</style>",
            f'<defs><marker id="arrow{unique}" viewBox="0 0 8 8" refX="7" refY="4" markerWidth="6" markerHeight="6" orient="auto-start-reverse">'
            '<path d="M0 0L8 4L0 8z" fill="#222"/></marker></defs>', f'<rect{moved} width="100%" height="100%" fill="#fff"/>']


def _fragment_colours(scene: Scene) -> dict[str, str]:
    names = sorted({node.level for node in scene.nodes if node.level})
    return {name: _FRAGMENTS[place % len(_FRAGMENTS)] for place, name in enumerate(names)}


def _legend(kinds: list[str], note: str, corner: Point, line: float) -> list[str]:
    """What the colours mean, and the note, in lines from a corner of the picture."""
    x, top = corner
    parts: list[str] = []
    style = f'class="k" style="font-size:{0.6 * line:.0f}px"'
    for place, kind in enumerate(kinds):
        y = top + line * place
        parts.append(f'<circle cx="{x + 0.8 * line:.0f}" cy="{y - 0.2 * line:.0f}" r="{0.35 * line:.0f}" fill="{COLOURS[kind]}" stroke="#222"/>'
                     f'<text {style} x="{x + 1.5 * line:.0f}" y="{y:.0f}">{_MEANINGS[kind]}</text>')
    if note:
        parts.append(f'<text {style} x="{x + 0.4 * line:.0f}" y="{top + line * len(kinds):.0f}">{escape(note)}</text>')
    return parts


def _edges(scene: Scene, curves: list[Curve], colours: dict[str, str], unique: str) -> list[str]:
    """All edges, those with arrows above the others."""
    has_weights = scene.has_weights()
    levels = {node.identity: node.level for node in scene.nodes}
    upwards = sorted(zip(scene.edges, curves), key=lambda pair: pair[0].arrow or pair[0].back)
    return [_edge(edge, curve, has_weights, colours.get(levels[edge.one], "") if edge.inside else "", unique) for edge, curve in upwards]


def _edge(edge: DrawnEdge, curve: Curve, has_weights: bool, band: str, unique: str) -> str:
    (x, y), (across, down), (p, q) = curve
    path = f"M{x:.1f} {y:.1f}Q{across:.1f} {down:.1f} {p:.1f} {q:.1f}"
    pointed = edge.arrow or edge.back
    style = 'stroke="#222" stroke-width="2"' if pointed else 'stroke="#aaa" stroke-width="1.2"'
    arrows = (f' marker-end="url(#arrow{unique})"' if edge.arrow else "") + (f' marker-start="url(#arrow{unique})"' if edge.back else "")
    text = f'<path d="{path}" fill="none" stroke="{band}" stroke-width="9" opacity="0.45"/>' if band else ""
    text += f'<path d="{path}" fill="none" {style}{arrows}/>'
    if has_weights:
        x, y = curve.at(0.5)
        text += f'<text class="e" x="{x:.1f}" y="{y + 3:.1f}">{edge.weight}</text>'
    return text


def _node(node: DrawnNode, x: float, y: float, line: str, spot: Spot | None) -> str:
    half = half_width(node.name)
    shapes = [(0.0, node.colour)] + ([(3.0, "none")] if node.marked else [])
    thick = 3 if line != "#222" else 1.4
    text = [f'<rect x="{x - half + inset:.1f}" y="{y - RADIUS + inset:.1f}" width="{2 * (half - inset):.1f}" height="{2 * (RADIUS - inset):.1f}" '
            f'rx="{RADIUS - inset}" fill="{fill}" stroke="{line}" stroke-width="{thick}"/>' for inset, fill in shapes]
    text.append(f'<text class="n" x="{x:.1f}" y="{y + 4:.1f}">{escape(node.name)}</text>')
    if spot is not None:
        text.append(_words(node.words, spot))
    return "".join(text)


def _words(words: str, spot: Spot) -> str:
    anchor = "" if spot.anchor == "middle" else f' style="text-anchor:{spot.anchor}"'
    return f'<text class="w"{anchor} x="{spot.point[0]:.1f}" y="{spot.point[1]:.1f}">{escape(words)}</text>'
