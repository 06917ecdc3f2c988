"""Labels: what is decoded says what `pls mark` has to write, and encodes to the same bits."""

from __future__ import annotations

import unittest
from functools import cache

from plsdesk.answers import Status
from plsdesk.codes import CODES, BitReader, from_hexadecimal, number_code, to_hexadecimal
from plsdesk.fault import DeskError
from plsdesk.labels import LabelText, parse_labels
from plsdesk.network import Network
from plsdesk.schemes import SCHEMES, Value, parse_scheme, show
from plsdesk.trees import components
from tests import program
from tests.networks import small_networks, without

TREES = {"spt": "spt", "mst": "mst", "pathmax": "mst"}
EXPRESSIONS = (*SCHEMES, "map(tree)", "and(tree,leader)", "or(bipartite,acyclic)", "or(acyclic,and(count,mst))", "and(or(forest,tree),spt)")


@cache
def marked(expression: str, code: str) -> tuple[Network, LabelText]:
    """The small networks that have the property of an expression, and what `pls mark` writes for them."""
    pls = program()
    network = small_networks("mst" if "mst" in expression or "pathmax" in expression else TREES.get(expression, "spt"))
    answer = pls.run(["mark", expression, "--code", code], network.text())
    if answer.status is Status.NO:
        network = without(network, set(map(int, answer.text.split()[1:])))
        answer = pls.run(["mark", expression, "--code", code], network.text())
    return network, parse_labels(answer.text)


def depths(network: Network) -> dict[int, tuple[int, int]]:
    """The root of each node and the length of its chain of pointers."""
    nodes = network.by_identity()
    found: dict[int, tuple[int, int]] = {}
    for node in network.nodes:
        chain = [node.identity]
        while (target := nodes[chain[-1]].target()) is not None:
            chain.append(target)
        found[node.identity] = (chain[-1], len(chain) - 1)
    return found


class RoundTrips(unittest.TestCase):
    """Values and labels, both ways."""

    def test_labels_of_all_small_networks(self) -> None:
        for expression in EXPRESSIONS:
            scheme = parse_scheme(expression)
            for code in CODES:
                with self.subTest(expression, code=code):
                    network, labels = marked(expression, code)
                    self.assertGreater(len(labels.bits), 50)
                    self.assertEqual(labels.code, code)
                    self.assertEqual(list(labels.bits), [node.identity for node in network.nodes])
                    for bits in labels.bits.values():
                        self.assertEqual(scheme.encode(scheme.decode(bits, code), code), bits)

    def test_what_the_fields_say(self) -> None:
        for expression in ("tree", "spt", "mst", "pathmax", "leader"):
            network, labels = marked(expression, "gamma")
            chains = depths(network)
            for identity, value in self._values(expression, labels).items():
                with self.subTest(expression, node=identity):
                    self.assertEqual(value["root"], chains[identity][0])
                    if expression != "leader":
                        self.assertEqual(value["depth"], chains[identity][1])
                    self.assertEqual(value.get("own", identity), identity)

    def test_what_counts_and_maps_say(self) -> None:
        network, labels = marked("count", "delta")
        values = self._values("count", labels)
        for component in components(network):
            for identity in component:
                said = [values[identity][name] for name in ("root", "own", "total")]
                self.assertEqual(said, [component[0], identity, len(component)])
        network, labels = marked("map(tree)", "gamma")
        nodes = network.by_identity()
        value = self._values("map(tree)", labels)[network.nodes[-1].identity]
        for node in value["map"]:
            row = nodes[node["id"]]
            self.assertEqual([list(port) for port in row.ports], node["ports"])
            self.assertEqual((row.state.pointer, row.state.mark, row.state.number), (node["pointer"], node["mark"], node["num"]))

    @staticmethod
    def _values(expression: str, labels: LabelText) -> dict[int, Value]:
        scheme = parse_scheme(expression)
        return {identity: scheme.decode(bits, labels.code) for identity, bits in labels.bits.items()}

    def test_show(self) -> None:
        self.assertEqual(show(parse_scheme("tree").decode(from_hexadecimal(8, "32"))), "root=5 depth=1")
        self.assertEqual(show(parse_scheme("and(tree,bipartite)").decode(from_hexadecimal(10, "2a80"))), "root=1 depth=0 & colour=0")


class Codes(unittest.TestCase):
    """The number codes, against the table of docs/FORMATS.md."""

    def test_the_table(self) -> None:
        table = {0: ("1", "1"), 1: ("010", "0100"), 2: ("011", "0101"), 3: ("00100", "01100"), 4: ("00101", "01101"),
                 5: ("00110", "01110"), 7: ("0001000", "00100000"), 9: ("0001010", "00100010")}
        for number, codes in table.items():
            for code, bits in zip(CODES, codes):
                self.assertEqual(number_code(number, code), bits)

    def test_numbers_are_read_back(self) -> None:
        for code in CODES:
            for number in (*range(300), 2**32 - 1, 2**62, 2**63 - 2):
                reader = BitReader(number_code(number, code) + "1", code)
                self.assertEqual((reader.number(), reader.left()), (number, 1))

    def test_what_has_no_code(self) -> None:
        for code in CODES:
            self.assertRaises(DeskError, number_code, 2**63 - 1, code)
            for bits in ("", "0", "000", "0" * 200):
                self.assertRaises(DeskError, BitReader(bits, code).number)

    def test_digits(self) -> None:
        for bits in ("", "1", "0101", "010010", "1" * 17):
            self.assertEqual(from_hexadecimal(len(bits), to_hexadecimal(bits)), bits)
        for length, digits in ((4, "5F"), (4, "51"), (9, "50"), (0, "00"), (4, "-")):
            self.assertRaises(DeskError, from_hexadecimal, length, digits)

    def test_labels_that_cannot_be_read(self) -> None:
        for expression, bits in (("tree", "010"), ("tree", "01011"), ("bipartite", ""), ("and(tree,tree)", "0011"), ("mst", "1" * 4 + "010" + "1111")):
            self.assertRaises(DeskError, parse_scheme(expression).decode, bits)


if __name__ == "__main__":
    unittest.main()
