"""Pictures: what is drawn, in what time, and what is left out."""

from __future__ import annotations

import math
import re
import shutil
import time
import unittest
from xml.etree import ElementTree

from plsdesk.answers import Report, Verdict
from plsdesk.network import Network
from plsdesk.pictures.graphviz import dot_picture, graphviz_svg
from plsdesk.pictures.layout import RADIUS, half_width, places_of
from plsdesk.pictures.page import page
from plsdesk.pictures.scene import COLOURS, MOST_DRAWN, scene_of
from plsdesk.pictures.svg import svg_picture
from plsdesk.running import Moment, play
from plsdesk.schemes import parse_scheme
from plsdesk.traces import Step
from plsdesk.trees import point_along
from tests import SLOWER, program
from tests.test_formats import example, read
from tests.test_traces import trace_of

SVG = "{http://www.w3.org/2000/svg}"


def grid(side: int) -> Network:
    """A square grid whose nodes point along a BFS tree."""
    lines = [f"{row * side + column} {row * side + column + step}" for row in range(side) for column in range(side)
             for step, inside in ((1, column + 1 < side), (side, row + 1 < side)) if inside]
    network = read("edges", "\n".join(lines))
    point_along(network, "bfs", [])
    return network


def texts(svg: str) -> list[str]:
    """The texts in a picture."""
    return [one.text or "" for one in ElementTree.fromstring(svg).iter(SVG + "text")]


def judged(network: Network, verdict: Verdict) -> str:
    """The picture of a network at whose nodes there is one verdict."""
    return svg_picture(scene_of(network, Report({node.identity: verdict for node in network.nodes})))


def boxes(picture: ElementTree.Element) -> dict[str, tuple[float, float, float, float]]:
    """The box of each line of words that belongs to a node, by its words and its place: left, top, right and bottom."""
    found: dict[str, tuple[float, float, float, float]] = {}
    for text in picture.iter(SVG + "text"):
        if text.attrib["class"] == "w":
            words, x, y = text.text or "", float(text.attrib["x"]), float(text.attrib["y"])
            width = 5 * len(words)
            left = x - width * {"text-anchor:start": 0, "text-anchor:end": 1}.get(text.attrib.get("style", ""), 0.5)
            found[f"{words} at {x} {y}"] = (left, y - 8, left + width, y + 2)
    return found


def crossings(svg: str) -> list[str]:
    """The words of nodes that an edge crosses."""
    picture = ElementTree.fromstring(svg)
    paths = [list(map(float, re.findall(r"-?[\d.]+", path.attrib["d"]))) for path in picture.iter(SVG + "path") if "Q" in path.attrib["d"]]
    points = [tuple((1 - share) ** 2 * path[axis] + 2 * share * (1 - share) * path[axis + 2] + share**2 * path[axis + 4] for axis in (0, 1))
              for path in paths for share in (step / 200 for step in range(201))]
    return [words for words, (left, top, right, bottom) in boxes(picture).items()
            if any(left < x < right and top < y < bottom for x, y in points)]


VERDICTS = (Verdict("waiting", ports=(0,)), Verdict("reject", 2, 3), Verdict("accept", stale=(0,)))


class Drawn(unittest.TestCase):
    """Pictures as SVG and as DOT."""

    def test_verdicts_are_drawn(self) -> None:
        network = example("racks.dot")
        report = Report({1: Verdict("accept"), 2: Verdict("reject", 1, 5), 3: Verdict("waiting", ports=(0,)), 4: Verdict("reject", 2, 3),
                         5: Verdict("accept", stale=(1,)), 6: Verdict("accept"), 7: Verdict("accept")})
        scene = scene_of(network, report)
        svg = svg_picture(scene)
        for words in ("gateway", "s1", "rule 5", "part 2, rule 3", "waits", "holds an old label"):
            self.assertIn(words, texts(svg))
        for kind in ("reject", "waiting", "stale"):
            self.assertIn(COLOURS[kind], svg)
        self.assertEqual(svg.count("marker-end") + svg.count("marker-start"), 6)
        self.assertIn("doublecircle", dot_picture(scene))
        self.assertEqual(len(read("dot", dot_picture(scene)).edges()), len(network.edges()))

    def test_weights_beside_the_tree_are_inside_of_the_picture(self) -> None:
        network = example("petersen.graphml")
        point_along(network, "mst", [])
        picture = ElementTree.fromstring(svg_picture(scene_of(network)))
        left, _, width, _ = map(float, picture.attrib["viewBox"].split())
        self.assertLess(left, 0)
        for one in picture.iter(SVG + "text"):
            self.assertTrue(left + 10 <= float(one.attrib["x"]) <= left + width - 10, one.text)

    def test_words_stand_where_no_edge_crosses_them(self) -> None:
        for lines in ("1 2\n2 3\n3 1\n2 -> 1\n3 -> 1\n", "a b\nb c\nb -> a\nc -> b\n", "Oslo Bergen\nBergen Moss\nOslo -> Bergen\nBergen -> Oslo\n"):
            for verdict in VERDICTS:
                with self.subTest(lines, verdict=verdict):
                    self.assertEqual(crossings(judged(read("edges", lines), verdict)), [])

    def test_words_are_inside_of_the_picture_and_hide_no_node(self) -> None:
        for network in (example("karate.edges", "karate.states"), example("abilene.edges", "abilene.states"), example("racks.dot")):
            places = places_of(scene_of(network))
            for verdict in VERDICTS:
                picture = ElementTree.fromstring(judged(network, verdict))
                start, _, width, _ = map(float, picture.attrib["viewBox"].split())
                for words, (left, top, right, bottom) in boxes(picture).items():
                    self.assertTrue(start < left and right < start + width, words)
                    for x, y in places.values():
                        self.assertFalse(left - RADIUS < x < right + RADIUS and top - RADIUS < y < bottom + RADIUS, words)

    def test_nodes_do_not_stand_on_one_another(self) -> None:
        for network in (example("karate.edges", "karate.states"), example("abilene.edges", "abilene.states"), example("florentine.adjlist"), grid(9)):
            scene = scene_of(network)
            places = places_of(scene)
            nodes = [(*places[node.identity], half_width(node.name)) for node in scene.nodes]
            for at, (x, y, half) in enumerate(nodes):
                for other_x, other_y, other_half in nodes[:at]:
                    apart = math.hypot(x - other_x, y - other_y) >= 2 * RADIUS
                    self.assertTrue(apart and (abs(x - other_x) >= half + other_half or abs(y - other_y) > 1))

    def test_components_stand_apart(self) -> None:
        scene = scene_of(read("edges", "a b\nc d\ne\n"))
        self.assertEqual(len(scene.components), 3)
        self.assertEqual(dot_picture(scene).count("subgraph"), 3)
        places = places_of(scene)
        self.assertLess(max(places[one][0] for one in scene.components[0]), min(places[one][0] for one in scene.components[1]))

    def test_fragments_of_a_level(self) -> None:
        network = example("abilene.edges", "abilene.states")
        trace = trace_of(network, "mst", [])
        values = {identity: parse_scheme("mst").decode(bits) for identity, bits in trace.bits.items()}
        inside = [sum(edge.inside for edge in scene_of(network, None, values, level).edges) for level in (1, 2, 3)]
        self.assertEqual((inside[0], inside[2]), (0, 0))
        self.assertGreater(inside[1], 5)

    def test_names_are_escaped(self) -> None:
        network = read("csv", 'source,target\n<a>,"b & ""c"""\n')
        self.assertIn('b & "c"', texts(svg_picture(scene_of(network))))
        self.assertEqual(len(read("dot", dot_picture(scene_of(network))).nodes), 2)

    @unittest.skipUnless(shutil.which("dot"), "Graphviz is not installed")
    def test_graphviz_lays_out(self) -> None:
        self.assertIn("Kansas City", graphviz_svg(dot_picture(scene_of(example("abilene.gml")))))


class Large(unittest.TestCase):
    """Networks of 500 nodes are drawn whole in two seconds; of larger ones what is near the nodes that notice."""

    def test_500_nodes(self) -> None:
        network = grid(22)
        before = time.process_time()
        svg = svg_picture(scene_of(network))
        self.assertLess(time.process_time() - before, SLOWER * 2.0)
        self.assertEqual(len(set(texts(svg))), 484)

    def test_500_nodes_that_wait(self) -> None:
        network = grid(22)
        before = time.process_time()
        svg = judged(network, VERDICTS[0])
        self.assertLess(time.process_time() - before, SLOWER * 2.0)
        self.assertEqual(texts(svg).count("waits"), 484 + 1)  # and the legend

    def test_more_nodes(self) -> None:
        network = grid(100)
        report = Report({node.identity: Verdict("accept") for node in network.nodes})
        report.verdicts[5050] = Verdict("reject", 1, 3)
        before = time.process_time()
        scene = scene_of(network, report)
        svg = svg_picture(scene)
        self.assertLess(time.process_time() - before, SLOWER * 2.0)
        self.assertLessEqual(len(scene.nodes), MOST_DRAWN)
        self.assertIn("rule 3", texts(svg))
        self.assertIn(f"{len(scene.nodes)} of 10000 nodes are drawn: those that notice, and what is near them", texts(svg))
        self.assertIn("near the first one, since none notices", scene_of(network).note)


class Pages(unittest.TestCase):
    """A page that a browser steps through."""

    def test_a_page(self) -> None:
        network = example("racks.dot")
        moments: list[Moment] = play(program(), trace_of(network, "tree", [Step("r1 <crashes>", states={"r1": {"pointer": None}})]))
        text = page(moments, "racks & spines")
        self.assertEqual(text.count('<div class="step"'), 2)
        self.assertIn("step 1: r1 &lt;crashes&gt;", text)
        self.assertIn("r1 (rule 4)", text)
        self.assertNotIn("http://", text.replace("http://www.w3.org/2000/svg", ""))
        self.assertNotIn("https://", text)


if __name__ == "__main__":
    unittest.main()
