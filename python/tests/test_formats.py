"""Files of other formats: there and back, and what is wrong in them."""

from __future__ import annotations

import random
import subprocess
import sys
import tempfile
import time
import unittest
from pathlib import Path

from plsdesk.builder import NetworkBuilder
from plsdesk.fault import DeskError
from plsdesk.made import made
from plsdesk.network import Network, parse_network
from plsdesk.readers import FORMATS, read_files
from plsdesk.readers.options import ReadOptions
from plsdesk.trees import TREES, components, point_along
from tests import SLOWER, TOP, program
from tests.networks import small_networks

EXAMPLES = TOP / "examples"


def read(form: str, text: str, options: ReadOptions = ReadOptions()) -> Network:
    """The network of a text of a format."""
    builder = NetworkBuilder(options.lightest, options.without_loops)
    FORMATS[form].read(text, builder, options)
    return builder.build()


def by_names(network: Network) -> tuple[set[tuple[object, ...]], set[tuple[object, ...]]]:
    """A network without identities and orders: its nodes with their states, and its edges."""
    def name(identity: int | None) -> str:
        return "" if identity is None else str(network.name(identity))

    nodes: set[tuple[object, ...]] = {(name(node.identity), name(node.target()), node.state.mark, node.state.number) for node in network.nodes}
    return nodes, {(*sorted((name(one), name(other))), weight) for one, other, weight in network.edges()}


def example(*files: str, options: ReadOptions = ReadOptions()) -> Network:
    """The network of files in `examples/`."""
    return read_files([str(EXAMPLES / file) for file in files], None, options)


# format, text, and what the error has to say
FAULTS: tuple[tuple[str, str, str], ...] = (
    ("edges", "a b\nb c 1.5\n", "line 2: the weight of the edge b - c is 1.5"),
    ("edges", "a b\n\na a\n", "line 3: node a is linked to itself"),
    ("edges", "a b\na b\n", "line 2: the edge a - b is there twice, first at line 1"),
    ("edges", "a b 3\nb a 4\n", "line 2: the edge a - b has two weights, 3 (line 1) and 4"),
    ("edges", "0 1 3 4\n", "line 1: an edge is two nodes and at most a weight; here are 4 words"),
    ("edges", "a b\na -> c\n", "line 2: node a points at c along no edge"),
    ("edges", "a b\na mark x\n", "line 2: the mark of a is x"),
    ("edges", "a b\na num 1\na num 2\n", "line 3: the num of a is said twice, at line 2 too"),
    ("edges", "a b {'weight': }\n", "line 1: the attributes behind the edge are no dictionary"),
    ("edges", "a b -1\n", "line 1: the weight of the edge a - b is -1"),
    ("edges", "# nothing\n", "there is no node"),
    ("edges", "a b\nb->a\n", "line 2: `b->a` is one word"),
    ("edges", "Oslo,Bergen\n", "line 1: words are separated by blanks"),
    ("edges", "Oslo, Bergen, 4\n", "line 1: words are separated by blanks"),
    ("edges", '"New York" Oslo\n', "line 1: a quotation mark begins here"),
    ("adjacency", "a: b c\n", "line 1: words are separated by blanks"),
    ("graphml", "<graphml><graph><node id='a'/><edge source='a' target='b'/></graph></graphml>", "line 1: no node has the id b"),
    ("csv", "source;target\na;b\n", "line 1: a table has the columns"),
    ("adjacency", "a b\nb b\n", "line 2: node b is linked to itself"),
    ("adjacency", "a b c\na b\n", "line 2: the edge a - b is there twice"),
    ("csv", "a,b\n1,2\n", "line 1: a table has the columns `source` and `target`"),
    ("csv", "source,target,weight\na,b,1\na,c\n", "line 3: the row has 2 cells, and the heading 3"),
    ("csv", "source,target,weight\na,b,heavy\n", "line 2: the weight of the edge a - b is heavy"),
    ("gml", "graph [\n node [ id 1 ]\n edge [ source 1 target 2 ]\n]\n", "line 3: no node has the id 2"),
    ("gml", "graph [\n node [ label \"x\" ]\n]\n", "line 2: a node has no `id`"),
    ("gml", "graph [\n node [ id 1 ]\n node [ id 1 ]\n]\n", "line 3: the id 1 is there twice"),
    ("gml", "graph [\n node [ id 1 ]\n", "the `[` of line 1 is not closed"),
    ("gml", "graph [ node [ id 1 label \"x ] ]\n", "a quotation mark is not closed"),
    ("gml", "nodes 3\n", "there is no `graph"),
    ("graphml", "<graphml><graph>\n<node id='a'/>\n<edge source='a' target='a'/></graph></graphml>", "line 3: node a is linked to itself"),
    ("graphml", "<graphml>\n<graph>", "line 2: this is no XML"),
    ("graphml", "<graphml><graph>\n<edge source='a'/></graph></graphml>", "line 2: the edge has no attribute `target`"),
    ("dot", "graph {\n a -- b\n a -- b\n}\n", "line 3: the edge a - b is there twice"),
    ("dot", "graph {\n a -- b [weight=0.5]\n}\n", "line 2: the weight of the edge a - b is 0.5"),
    ("dot", "graph {\n a -- ;\n}\n", "line 2: a node is due here, not `;`"),
    ("dot", "graph {\n a -- b\n", "line 2: the text ends before the graph is closed"),
    ("dot", "network {\n}\n", "line 1: a DOT text begins with `graph` or `digraph`"),
)


class ThereAndBack(unittest.TestCase):
    """A network written in a format is read back as it was."""

    def test_examples(self) -> None:
        for network in (example("karate.edges", "karate.states"), example("abilene.gml"), example("petersen.graphml"), example("racks.dot"),
                        example("sensors.csv"), example("florentine.adjlist")):
            for tree in TREES:
                point_along(network, tree, [])
                self._round(network)

    def test_all_small_networks(self) -> None:
        network = small_networks("mst")
        for form in FORMATS.values():
            if form.name != "adjacency":
                self.assertEqual(by_names(read(form.name, form.write(network))), by_names(network))

    def _round(self, network: Network) -> None:
        self.assertEqual(parse_network(network.text()).text(), network.text())
        for form in FORMATS.values():
            with self.subTest(form.name):
                try:
                    text = form.write(network)
                except DeskError as error:
                    self.assertIn(form.name, ("adjacency", "edges"))
                    self.assertRegex(error.what, "has no|cannot hold")
                    continue
                self.assertEqual(by_names(read(form.name, text)), by_names(network))

    def test_an_adjacency_list(self) -> None:
        network = example("florentine.adjlist")
        self.assertEqual((len(network.nodes), len(network.edges())), (15, 20))
        self.assertEqual(by_names(read("adjacency", FORMATS["adjacency"].write(network))), by_names(network))

    def test_pls_takes_all_examples(self) -> None:
        for file in ("abilene.gml", "petersen.graphml", "florentine.adjlist", "racks.dot", "sensors.csv"):
            network = example(file)
            for tree, scheme in (("bfs", "tree"), ("spt", "spt"), ("mst", "mst"), ("mst", "pathmax")):
                point_along(network, tree, [])
                self.assertEqual(program().run(["mark", scheme], network.text()).status.value, 0, (file, tree))


class Readers(unittest.TestCase):
    """What is read, and what is told of what cannot be."""

    def test_faults_have_their_places(self) -> None:
        for form, text, wanted in FAULTS:
            with self.subTest(form, text=text), self.assertRaises(DeskError) as caught:
                read(form, text)
            self.assertIn(wanted, str(caught.exception))

    def test_faults_of_several_files_name_the_file(self) -> None:
        with tempfile.TemporaryDirectory() as folder:
            one, two = Path(folder, "one.edges"), Path(folder, "two.states")
            one.write_text("a b\n")
            two.write_text("# states\nb -> c\n")
            files = ([str(one), str(two)], None, ReadOptions())
            self.assertRaisesRegex(DeskError, "two.states, line 2: node b points at c along no edge", read_files, *files)
            two.write_text("a b 5\n")
            self.assertRaisesRegex(DeskError, "two.states, line 1: .* first at .*one.edges, line 1", read_files, *files)

    def test_files_that_are_no_networks(self) -> None:
        line = "network\nnode 1 - 0 0\nend\n"
        for name, text, wanted in (("a.txt", line.replace("\n", "\r\n"), "a.txt, line 1: the line ends with CR LF"),
                                   ("a.txt", line.replace("1 -", "1\t-"), "a.txt, line 2: there is a tab"), ("a.txt", "", "a.txt: the file is empty"),
                                   ("a.txt", "labels\nend\n", "a.txt, line 1: `labels` begins another part"),
                                   ("a.edges", "\udcff", "a.edges: this is no text in UTF-8")):
            with tempfile.TemporaryDirectory() as folder, self.subTest(text):
                path = Path(folder, name)
                path.write_bytes(text.encode("utf-8", "surrogateescape"))
                self.assertRaisesRegex(DeskError, wanted, read_files, [str(path)], None, ReadOptions())

    def test_a_node_may_be_called_as_a_part_is(self) -> None:
        with tempfile.TemporaryDirectory() as folder:
            path = Path(folder, "a.edges")
            path.write_text("labels\nlabels rules\n")
            self.assertEqual(read_files([str(path)], None, ReadOptions()).names, {1: "labels", 2: "rules"})

    def test_an_attribute_that_is_asked_for_is_there(self) -> None:
        file = [str(EXAMPLES / "abilene.gml")]
        self.assertRaisesRegex(DeskError, "no edge has the attribute Speed .*weight", read_files, file, None, ReadOptions(weight="Speed"))
        self.assertRaisesRegex(DeskError, "no node has the attribute Role .*Country", read_files, file, None, ReadOptions(mark="Role"))
        self.assertEqual(len(read_files(file, None, ReadOptions(weight="Speed", unweighted=True)).nodes), 11)

    def test_a_repeated_edge_from_its_other_end_is_one(self) -> None:
        self.assertEqual(len(read("edges", "a b 2\nb a 2\n").edges()), 1)
        self.assertEqual(len(read("dot", "digraph { a -> b; b -> a }").edges()), 1)

    def test_what_is_dropped_on_request(self) -> None:
        network = read("edges", "a b 5\na b 3\nb a 4\na a\n", ReadOptions(lightest=True, without_loops=True))
        self.assertEqual(network.edges(), [(1, 2, 3)])
        self.assertEqual(read("edges", "a b 2.5\n", ReadOptions(unweighted=True)).edges(), [(1, 2, 1)])

    def test_identities_are_kept_where_all_are_numbers(self) -> None:
        self.assertEqual([node.identity for node in read("edges", "7 3\n3 0\n").nodes], [0, 3, 7])
        self.assertEqual(read("edges", "7 3\n3 x\n").names, {1: "7", 2: "3", 3: "x"})
        self.assertEqual(read("edges", "07 7\n").names, {1: "07", 2: "7"})

    def test_what_networkx_writes_as_an_edge_list(self) -> None:
        self.assertEqual(read("edges", "a b {'weight': 5}\nb c {}\n").edges(), [(1, 2, 5), (2, 3, 1)])

    def test_dot_with_subgraphs_and_defaults(self) -> None:
        network = read("dot", 'strict digraph "x" { edge [weight=3] a -> {b c} -> d; subgraph s { "e f":n } rank=same /* no */ }')
        self.assertEqual(by_names(network)[1], {("a", "b", 3), ("a", "c", 3), ("b", "d", 3), ("c", "d", 3)})
        self.assertEqual(len(network.nodes), 5)

    def test_the_same_network_from_lists_and_from_gml(self) -> None:
        lists, gml = example("abilene.edges"), example("abilene.gml")
        self.assertEqual([[port for port in node.ports] for node in lists.nodes], [[port for port in node.ports] for node in gml.nodes])
        self.assertEqual(gml.name(9), "Chicago")


class Trees(unittest.TestCase):
    """Pointers made on request have the property that they are made for, on all small networks."""

    def test_pls_marks_them(self) -> None:
        for tree, schemes in (("bfs", ("tree", "forest")), ("spt", ("spt", "tree")), ("mst", ("mst", "pathmax"))):
            network = small_networks(tree)
            for scheme in schemes:
                self.assertEqual(program().run(["mark", scheme], network.text()).status.value, 0, (tree, scheme))

    def test_two_roots_in_a_component(self) -> None:
        network = read("edges", "a b\nc d\n")
        self.assertEqual(components(network), [[1, 2], [3, 4]])
        with self.assertRaises(DeskError):
            point_along(network, "bfs", [1, 2])
        point_along(network, "bfs", [2, 3])
        self.assertEqual([node.target() for node in network.nodes], [2, None, None, 3])


class Made(unittest.TestCase):
    """Networks of any size."""

    def test_their_pointers_are_trees(self) -> None:
        for asked, edges in (("path:1", 0), ("path:50", 49), ("hub:50", 49), ("grid:49", 84), ("ring:50", 200)):
            network = made(asked)
            self.assertEqual(len(network.edges()), edges)
            self.assertEqual(program().run(["mark", "tree"], network.text()).status.value, 0, asked)
        self.assertEqual(made("grid:4").text(), "network\nnode 1 - 0 0\nport 2 1\nport 3 1\nnode 2 0 0 0\nport 1 1\nport 4 1\n"
                         "node 3 0 0 0\nport 1 1\nport 4 1\nnode 4 1 0 0\nport 2 1\nport 3 1\nend\n")

    def test_what_is_no_network(self) -> None:
        for asked in ("tree:5", "path", "path:0", "path:32769", "grid:5", "ring:9"):
            self.assertRaises(DeskError, made, asked)


class Large(unittest.TestCase):
    """A network of 32,000 nodes is imported in a second of processor time."""

    def test_a_second(self) -> None:
        dice = random.Random(3)
        lines = [f"{one} {dice.randrange(one)} {dice.randrange(1000)}" for one in range(1, 32_000)]
        with tempfile.TemporaryDirectory() as folder:
            path = Path(folder, "large.edges")
            path.write_text("\n".join(lines) + "\n")
            spent: list[float] = []
            for _ in range(3):
                before = time.process_time()
                text = read_files([str(path)], None, ReadOptions()).text()
                spent.append(time.process_time() - before)
        self.assertEqual(text.count("node "), 32_000)
        self.assertLess(min(spent), SLOWER * 1.0)


class WithNetworkx(unittest.TestCase):
    """Graphs of networkx, where it is installed."""

    def setUp(self) -> None:
        try:
            import networkx
        except ImportError:
            self.skipTest("networkx is not installed")
        self.networkx = networkx

    def test_there_and_back(self) -> None:
        from plsdesk.readers.graphs import from_networkx, to_networkx
        for network in (example("abilene.gml"), small_networks("spt")):
            self.assertEqual(by_names(from_networkx(to_networkx(network))), by_names(network))

    def test_names_of_any_kind(self) -> None:
        from plsdesk.readers.graphs import from_networkx
        graph = self.networkx.grid_2d_graph(2, 2)
        graph.nodes[0, 1]["pointer"] = (0, 0)
        network = from_networkx(graph)
        self.assertEqual(network.name(1), (0, 0))
        self.assertEqual(network.name(network.by_identity()[network.identity_of((0, 1))].target() or 0), (0, 0))

    def test_faults_name_the_edge(self) -> None:
        from plsdesk.readers.graphs import from_networkx
        graph = self.networkx.MultiGraph([("a", "b"), ("a", "b")])
        self.assertRaisesRegex(DeskError, "edge a - b: the edge a - b is there twice", from_networkx, graph)
        graph = self.networkx.Graph([("a", "a")])
        self.assertRaisesRegex(DeskError, "edge a - a: node a is linked to itself", from_networkx, graph)
        graph = self.networkx.Graph()
        graph.add_edge("a", "b", weight=0.5)
        self.assertRaisesRegex(DeskError, "edge a - b: the weight .* is 0.5", from_networkx, graph)

    def test_files_that_networkx_writes(self) -> None:
        graph = self.networkx.florentine_families_graph()
        for place, (one, other) in enumerate(graph.edges):
            graph[one][other]["weight"] = place + 1
        with tempfile.TemporaryDirectory() as folder:
            for ending, write in (("gml", self.networkx.write_gml), ("graphml", self.networkx.write_graphml),
                                  ("edgelist", self.networkx.write_edgelist)):
                path = str(Path(folder, "graph." + ending))
                write(graph, path)
                self.assertEqual(by_names(read_files([path], None, ReadOptions()))[1],
                                 {(*sorted(edge[:2]), edge[2]["weight"]) for edge in graph.edges(data=True)}, ending)

    def test_networkx_reads_what_the_desk_writes(self) -> None:
        network = example("abilene.gml")
        with tempfile.TemporaryDirectory() as folder:
            for form, read_graph in (("gml", self.networkx.read_gml), ("graphml", self.networkx.read_graphml)):
                path = Path(folder, "network." + form)
                path.write_text(FORMATS[form].write(network))
                graph = read_graph(str(path))
                self.assertEqual({(*sorted(edge[:2]), edge[2]["weight"]) for edge in graph.edges(data=True)}, by_names(network)[1])


class WithoutNetworkx(unittest.TestCase):
    """The desk is imported and works where networkx is not installed."""

    def test_nothing_needs_it(self) -> None:
        code = "import sys; sys.modules['networkx'] = None; from plsdesk.command_line import main; sys.exit(main(sys.argv[1:]))"
        done = subprocess.run([sys.executable, "-c", code, "import", str(EXAMPLES / "abilene.gml"), "--to", "graphml"], capture_output=True,
                              text=True, check=False)
        self.assertEqual((done.returncode, done.stderr), (0, ""))
        self.assertIn("Kansas City", done.stdout)


if __name__ == "__main__":
    unittest.main()
