"""Traces: the table tells what `pls` said, and a trace that is cut at the limits goes on as one that is not."""

from __future__ import annotations

import json
import random
import subprocess
import sys
import tempfile
import unittest
from functools import cache
from pathlib import Path
from unittest import mock

from plsdesk import carried, inputs
from plsdesk.answers import Verdict
from plsdesk.fault import DeskError
from plsdesk.files import write_network
from plsdesk.labels import LabelText, labels_text, parse_labels
from plsdesk.network import Network
from plsdesk.readers.options import ReadOptions
from plsdesk.running import Moment, play
from plsdesk.tables import rows_of, table
from plsdesk.traces import Step, Trace, parse_steps
from plsdesk.trees import point_along
from tests import TOP, environment, program
from tests.test_formats import example, read


def trace_of(network: Network, scheme: str, steps: list[Step]) -> Trace:
    """A trace that begins with the labels of `pls mark`."""
    labels = parse_labels(program().run(["mark", scheme], network.text()).text)
    return Trace(scheme, network, labels.code, labels.bits, steps)


def verdicts(moments: list[Moment]) -> list[dict[int, Verdict]]:
    """The verdicts at each moment."""
    return [moment.report.verdicts for moment in moments]


def chicago() -> Network:
    """The backbone with a BFS tree whose root is Chicago."""
    network = example("abilene.gml", options=ReadOptions(unweighted=True))
    point_along(network, "bfs", [network.identity_of("Chicago")])
    return network


def messages(network: Network, dice: random.Random, count: int) -> list[Step]:
    """Steps in which messages are sent, lost and late, nodes restart and change their labels and pointers."""
    steps: list[Step] = []
    names: list[str] = []
    for number in range(count):
        one = dice.choice(network.nodes)
        other = dice.choice(one.ports).neighbour
        names.append(str(number))
        step = Step(str(number), sends=[[one.identity, other, names[-1]]], hears=[[other, one.identity]])
        step.arrives = [name for name in dice.sample(names, min(3, len(names)))]
        if dice.random() < 0.3:
            step.labels = {one.identity: {"root": 9, "depth": dice.randrange(3), "dist": dice.randrange(3)}}
        if dice.random() < 0.1:
            step.restarts = [other]
        steps.append(step)
    return steps


class Cut(unittest.TestCase):
    """Where an input ends and the next begins makes no difference to what is told."""

    def test_watches(self) -> None:
        network = chicago()
        whole = trace_of(network, "spt", messages(network, random.Random(5), 40))
        told = verdicts(play(program(), whole))
        self.assertGreater(sum(verdict.kind == "reject" for moment in told for verdict in moment.values()), 10)
        self.assertGreater(sum(bool(verdict.stale) for moment in told for verdict in moment.values()), 10)
        for most in (1, 7):
            with mock.patch.object(carried, "MOST_ROUNDS", most):
                self.assertEqual(verdicts(play(program(), whole)), told, most)
        with mock.patch.object(carried, "MOST_EVENTS", 150):
            self.assertEqual(verdicts(play(program(), whole)), told)

    def test_rechecks(self) -> None:
        network = example("karate.edges", "karate.states")
        dice = random.Random(2)
        steps = [Step(str(place), labels={dice.choice(network.nodes).identity: {"root": 1, "depth": dice.randrange(4)}}) for place in range(30)]
        steps[7].unlinks, steps[9].links = [[1, 2]], [[1, 2, 1]]
        steps[12].states = {34: {"pointer": 33, "mark": 2}}
        steps[15].unlinks, steps[16].leaves = [[1, 12]], [12]
        steps[20].joins, steps[20].links = [40], [[40, 3, 5]]
        whole = trace_of(network, "tree", steps)
        told = verdicts(play(program(), whole))
        self.assertEqual(len(told), 31)
        for most in (1, 4):
            with mock.patch.object(inputs, "MOST_ROUNDS", most):
                self.assertEqual(verdicts(play(program(), whole)), told, most)
        with mock.patch.object(inputs, "MOST_EVENTS", 10):
            self.assertEqual(verdicts(play(program(), whole)), told)

    def test_more_steps_than_an_input_has_rounds(self) -> None:
        network = read("edges", "1 2\n2 -> 1\n")
        steps = [Step(str(place), labels={2: {"root": 1, "depth": 1 + place % 2}}) for place in range(300)]
        moments = play(program(), trace_of(network, "tree", steps))
        self.assertEqual([moment.number for moment in moments], list(range(301)))
        self.assertEqual([bool(moment.report.ids("reject")) for moment in moments[1:]], [place % 2 == 1 for place in range(300)])
        for step in steps:
            step.hears = [[1, 2], [2, 1]]
        moments = play(program(), trace_of(network, "tree", steps))
        self.assertEqual([bool(moment.report.ids("reject")) for moment in moments], [place % 2 == 1 for place in range(300)])


@cache
def protocol() -> list[Moment]:
    """The moments of the protocol in `examples/`, on the backbone."""
    with tempfile.TemporaryDirectory() as folder:
        path = str(Path(folder, "abilene.txt"))
        write_network(chicago(), path)
        done = subprocess.run([sys.executable, str(TOP / "examples/bfs_protocol.py"), path], capture_output=True, text=True, check=True,
                              env=environment())
    return play(program(), trace_of(chicago(), "spt", parse_steps(done.stdout)))


class TheProtocol(unittest.TestCase):
    """The protocol of the examples: all nodes accept although the tree is broken, and only a watch shows it."""

    def test_the_table(self) -> None:
        notices = [row[2] for row in rows_of(protocol())]
        self.assertEqual(notices, ["", "", "Atlanta (rule 3)", "Houston (rule 3)", "", "New York (rule 4)", "", "", "Washington (rule 5)",
                                   "New York (rule 5)", ""])
        self.assertTrue(table(protocol()).endswith("at the end 11 nodes accept, 0 reject, 0 wait, and 0 hold old labels\n"))

    def test_all_accept_although_the_tree_is_broken(self) -> None:
        moment = protocol()[7]
        self.assertEqual(moment.name, "what it tells is lost")
        self.assertEqual((moment.report.ids("reject"), moment.report.ids("waiting")), ([], []))
        self.assertEqual([moment.network.name(one) for one in moment.report.stale()], ["Washington"])
        self.assertEqual(program().run(["mark", "spt"], moment.network.text()).text, "no\n")
        text = moment.network.text() + labels_text(LabelText("gamma", moment.bits))
        self.assertEqual([moment.network.name(one) for one in program().run(["verify", "spt"], text).reports[-1].ids("reject")], ["Washington"])


class Faults(unittest.TestCase):
    """What is wrong in a trace."""

    def test_steps(self) -> None:
        for text, wanted in (("[", "no JSON"), ("{}", "a list of steps"), ('[{"heard": []}]', "step 1: a step has no field `heard`"),
                             ('[{"hears": [["a"]]}]', "step 1: `hears` is a list of lists of 2 words"), ('[{"restarts": "a"}]', "a list of words"),
                             ('[{"labels": []}]', "`labels` is an object"), ('[{"states": {"a": 1}}]', "a state is an object"),
                             ('[{"states": {"a": {"up": null}}}]', "step 1: a state has no field `up`"),
                             ('[{"links": [["a", "b", 1.5]]}]', "step 1: the weight of the edge a - b is 1.5"),
                             ('[{"joins": ["Oslo"]}]', "step 1: a node that joins .* Oslo is none")):
            self.assertRaisesRegex(DeskError, wanted, parse_steps, text)
        self.assertEqual(parse_steps(json.dumps({"steps": [{"name": "x"}]})), [Step("x")])

    def test_steps_that_cannot_be_made(self) -> None:
        network = read("edges", "a b\nb c\nb -> a\nc -> b\n")
        for step, wanted in ((Step(hears=[["a", "c"]]), "no edge joins them"), (Step(arrives=["m"]), "no message m"),
                             (Step(states={"a": {"pointer": "c"}}), "no neighbour"), (Step(unlinks=[["a", "c"]]), "step 1: there is no edge a - c"),
                             (Step(labels={"x": "01"}), "no node x"), (Step(labels={"a": {"depth": 1}}), "has the fields root, depth"),
                             (Step(leaves=["a"]), "node a has ports to b"), (Step(labels={"a": "012"}), "the label of a: `012` is no label"),
                             (Step(labels={"a": {"root": "a", "depth": None}}), "no value of a label"), (Step(states={"a": {"mark": -1}}), "whole")):
            with self.subTest(step), self.assertRaisesRegex(DeskError, wanted):
                play(program(), trace_of(network, "tree", [step]))

    def test_the_step_is_named(self) -> None:
        network = read("edges", "a b\nb -> a\n")
        for steps in ([Step(), Step(labels={"x": "01"})], [Step(hears=[["a", "b"]]), Step(arrives=["m"])]):
            self.assertRaisesRegex(DeskError, "^step 2: ", play, program(), trace_of(network, "tree", steps))

    def test_names_stand_for_identities_in_labels(self) -> None:
        network = read("edges", "a b\nb -> a\n")
        moments = play(program(), trace_of(network, "tree", [Step(labels={"b": {"root": "b", "depth": 1}})]))
        self.assertEqual(moments[1].report.ids("reject"), [1, 2])


if __name__ == "__main__":
    unittest.main()
