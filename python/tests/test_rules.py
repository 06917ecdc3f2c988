"""Rejections: where a rule speaks of ports, the port at which it fails is found, whatever labels are broken."""

from __future__ import annotations

import random
import unittest

from plsdesk.explain import explain
from plsdesk.explain.rules import PORT_TESTS, RULES
from plsdesk.labels import LabelText, labels_text
from plsdesk.network import Network
from plsdesk.schemes import SCHEMES, Leaf, Value
from tests import program
from tests.test_labels import marked

# rules that may also fail at the node itself
AT_THE_NODE = {("mst", 3), ("pathmax", 3), ("mst", 5), ("map", 6)}


def broken(scheme: str, labels: LabelText, dice: random.Random) -> LabelText:
    """The labels with one number changed in every third of them, and one label in fifty cut short."""
    leaf = Leaf(scheme)
    bits: dict[int, str] = {}
    for identity, one in labels.bits.items():
        value = leaf.decode(one)
        if dice.random() < 0.33:
            _change(value, dice)
        bits[identity] = leaf.encode(value)[: -1 if dice.random() < 0.02 else None]
    return LabelText("gamma", bits)


def _change(value: Value, dice: random.Random) -> None:
    part = dice.choice([value, *value.get("levels", ())])
    field = dice.choice([name for name in part if name != "levels"])
    part[field] = 1 - part[field] if field == "colour" else max(0, part[field] + dice.choice((-1, 1)))


class FailingPorts(unittest.TestCase):
    """The rules in words."""

    def test_each_rejection_names_its_port(self) -> None:
        dice = random.Random(7)
        seen: set[tuple[str, int]] = set()
        for scheme in SCHEMES:
            network, labels = marked(scheme, "gamma")
            for _ in range(2):
                self._rejections(scheme, network, broken(scheme, labels, dice), seen)
        self.assertGreaterEqual(len(seen & set(PORT_TESTS)), 18, sorted(seen))

    def _rejections(self, scheme: str, network: Network, labels: LabelText, seen: set[tuple[str, int]]) -> None:
        text = network.text() + labels_text(labels)
        answer = program().run(["verify", scheme], text)
        said = {one.place: one.what for one in explain(answer, text.encode()) if one.place.startswith("node ")}
        for identity, verdict in answer.reports[-1].verdicts.items():
            if verdict.kind == "accept":
                self.assertNotIn(f"node {identity}", said)
                continue
            seen.add((scheme, verdict.rule))
            what = said[f"node {identity}"]
            self.assertIn(f"rejects by rule {verdict.rule} of {scheme}:", what)
            if verdict.rule == 2 or ((scheme, verdict.rule) in PORT_TESTS and (scheme, verdict.rule) not in AT_THE_NODE):
                self.assertIn("it fails at port", what, (scheme, verdict.rule, what))

    def test_every_rule_has_words(self) -> None:
        for scheme in SCHEMES:
            self.assertEqual(sorted(RULES[scheme]), list(range(3, 3 + len(RULES[scheme]))))
        self.assertTrue(all(rule in RULES[scheme] for scheme, rule in PORT_TESTS))


if __name__ == "__main__":
    unittest.main()
