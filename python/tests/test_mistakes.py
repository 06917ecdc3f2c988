"""The table of mistakes: each is made with `pls`, and its explanation has to name it."""

from __future__ import annotations

import random
import unittest

from plsdesk.explain import explain
from tests import program

NETWORK = "network\nnode 1 - 0 0\nport 2 1\nnode 2 0 0 0\nport 1 1\nend\n"
LABELS = "labels\nlabel 1 4 50\nlabel 2 6 48\nend\n"
BOTH = NETWORK + LABELS
RULES = "rules\nfield depth num\n"
# a triangle whose nodes point nowhere and have equal labels
RING = "network\n" + "".join(f"node {one} - 0 0\nport {(one + 1) % 3 + 1} 1\nport {one % 3 + 1} 1\n" for one in (1, 2, 3)) + \
    "end\nlabels\nlabel 1 1 80\nlabel 2 1 80\nlabel 3 1 80\nend\n"

# what the mistake is, the words (in one text, or as a list), the input, and what the explanation has to say
MISTAKES: tuple[tuple[str, str | list[str], str, tuple[str, ...]], ...] = (
    ("no words", "", "", ("no command is said",)),
    ("a command misspelt", "verfy tree", BOTH, ("no command", "did you mean `verify`")),
    ("a scheme misspelt", "verify tre", BOTH, ("no scheme", "did you mean `tree`")),
    ("a scheme misspelt in an expression", "mark and(tree,bipartit)", NETWORK, ("`bipartit`", "did you mean `bipartite`")),
    ("a scheme in capitals", "mark Tree", NETWORK, ("small letters", "did you mean `tree`")),
    ("scheme and command exchanged", "tree mark", NETWORK, ("the command comes first", "pls mark tree")),
    ("--json with mark", "mark tree --json", NETWORK, ("`mark` does not take --json", "verify and simulate and judge")),
    ("--code with verify", "verify tree --code delta", BOTH, ("`verify` does not take --code", "labels delta")),
    ("--code without a code", "mark tree --code", NETWORK, ("gamma or delta",)),
    ("an unknown code", "mark tree --code elias", NETWORK, ("gamma or delta",)),
    ("an unknown flag", "verify tree --jsn", BOTH, ("no flag", "did you mean `--json`")),
    ("two flags", "mark tree --json --code delta", NETWORK, ("more than one flag",)),
    ("help is asked for", "--help", "", ("pls has no help",)),
    ("a blank behind a comma, quoted", ["mark", "and(tree, leader)"], NETWORK, ("blank behind a comma", "'and(tree,leader)'")),
    ("a blank behind a comma, not quoted", ["mark", "and(tree,", "leader)"], NETWORK, ("blank behind a comma", "'and(tree,leader)'")),
    ("diameter outside of map", "mark diameter:3", NETWORK, ("inside of `map` alone", "map(diameter:3)")),
    ("bridgeless outside of map", "mark and(tree,bridgeless)", NETWORK, ("inside of `map` alone", "map(bridgeless)")),
    ("a diameter too great", "mark map(diameter:40000)", NETWORK, ("32767",)),
    ("too many names", "mark " + "and(tree," * 8 + "tree" + ")" * 8, NETWORK, ("too many names", "9")),
    ("a parenthesis missing", "mark and(tree,leader", NETWORK, ("parentheses do not close",)),
    ("three operands", "mark and(tree,leader,count)", NETWORK, ("takes 2 operands", "and(A,and(B,C))")),
    ("an operand missing", "mark and(tree,)", NETWORK, ("operand is missing",)),
    ("a map in a map", "mark map(map(tree))", NETWORK, ("a map stands in no other map",)),
    ("no scheme", "mark", NETWORK, ("a word is missing behind `mark`",)),
    ("a file as a word", "verify tree network.txt", BOTH, ("no names of files", "< network.txt")),
    ("a scheme for judge", "judge tree", BOTH, ("takes no scheme",)),
    ("rules of mst", "rules mst", "", ("`mst` has no rule set",)),
    ("a trial without a seed", "trial 100", "", ("N:SEED",)),
    ("nothing on standard input", "mark tree", "", ("standard input is empty",)),
    ("CR LF", "mark tree", NETWORK.replace("\n", "\r\n"), ("CR LF",)),
    ("a tab", "mark tree", NETWORK.replace("port 2 1", "port\t2 1"), ("tab",)),
    ("a byte order mark", "mark tree", "\ufeff" + NETWORK, ("byte order mark (BOM)",)),
    ("no line feed at the end", "mark tree", NETWORK[:-1], ("missing line feed",)),
    ("a blank line", "mark tree", NETWORK.replace("end\n", "\nend\n"), ("line is blank",)),
    ("a comment", "mark tree", NETWORK.replace("port 2 1", "port 2 1 # to Oslo"), ("comment",)),
    ("two blanks", "mark tree", NETWORK.replace("port 2 1", "port 2  1"), ("two blanks",)),
    ("a blank at the end of a line", "mark tree", NETWORK.replace("port 2 1", "port 2 1 "), ("blank stands at an end",)),
    ("a zero in front", "mark tree", NETWORK.replace("port 2 1", "port 02 1"), ("no zero in front", "`2`")),
    ("a number below 0", "mark tree", NETWORK.replace("port 2 1", "port 2 -1"), ("no sign",)),
    ("a weight that is not whole", "mark tree", NETWORK.replace("port 2 1", "port 2 1.5"), ("decimal point",)),
    ("an identity too great", "mark tree", NETWORK.replace("node 2", "node 4294967296"), ("at most 4294967295",)),
    ("None as a pointer", "mark tree", NETWORK.replace("node 1 -", "node 1 None"), ("pointer `-`",)),
    ("a node of three words", "mark tree", NETWORK.replace("node 1 - 0 0", "node 1 -"), ("4 words behind it", "node ID UP MARK NUM")),
    ("a list of edges", "mark tree", "1 2\n2 3\n", ("list of edges", "plsdesk import")),
    ("JSON as a network", "mark tree", '{"nodes": []}\n', ("JSON", "plsdesk import")),
    ("a heading in capitals", "mark tree", NETWORK.replace("network", "Network"), ("did you mean `network`",)),
    ("a network without nodes", "mark tree", "network\nend\n", ("no node",)),
    ("a word of a line misspelt", "mark tree", NETWORK.replace("port 2 1", "prot 2 1"), ("did you mean `port`",)),
    ("end forgotten", "mark tree", NETWORK[:-4], ("no line `end`",)),
    ("end of the network forgotten", "verify tree", BOTH.replace("end\nlabels", "labels"), ("the network part in front of it has no line `end`",)),
    ("labels forgotten", "verify tree", NETWORK, ("the labels part is due", "pls mark")),
    ("labels for mark", "mark tree", BOTH, ("labels part begins here", "`mark` reads network")),
    ("a schedule for verify", "verify tree", BOTH + "schedule\nend\n", ("schedule part", "another command", "simulate")),
    ("edits for simulate", "simulate tree", BOTH + "edits\nend\n", ("edits part", "another command", "recheck")),
    ("the answer no as labels", "verify tree", NETWORK + "no\n", ("`no` is an answer of pls",)),
    ("upper-case digits", "verify tree", BOTH.replace("6 48", "6 4C"), ("upper-case digits", "4c")),
    ("too few digits", "verify tree", BOTH.replace("6 48", "9 48"), ("9 bits take 4 digits",)),
    ("bits behind the last", "verify tree", BOTH.replace("6 48", "6 49"), ("has to be 0",)),
    ("no bits and digits", "verify tree", BOTH.replace("6 48", "0 00"), ("`-`",)),
    ("label in a watch", "watch tree", BOTH + "watch\nlabel 2 6 48\nlook\nend\n", ("there it is `relabel`",)),
    ("look in edits", "recheck tree", BOTH + "edits\nlook\nend\n", ("there it is `round`",)),
    ("edits without a round", "recheck tree", BOTH + "edits\nstate 2 - 0 0\nend\n", ("has to be `round`",)),
    ("a watch without a look", "watch tree", BOTH + "watch\nemit 1 0\nend\n", ("has to be `look`",)),
    ("labels in the delta code for judge", "judge", NETWORK + LABELS.replace("labels", "labels delta") + RULES + "end\n", ("gamma code alone",)),
    ("nodes out of order", "mark tree", "network\nnode 2 - 0 0\nnode 1 - 0 0\nend\n", ("rising order",)),
    ("a node twice", "mark tree", "network\nnode 2 - 0 0\nnode 2 - 0 0\nend\n", ("is there twice",)),
    ("a loop", "mark tree", "network\nnode 3 - 0 0\nport 3 5\nend\n", ("loop",)),
    ("parallel links", "mark tree", NETWORK.replace("port 2 1\n", "port 2 1\nport 2 1\n"), ("two ports to node 2", "parallel links")),
    ("a port to a node that is not there", "mark tree", NETWORK.replace("port 2 1", "port 9 1"), ("node 9, which is not there",)),
    ("a port without its way back", "mark tree", NETWORK.replace("port 1 1\n", ""), ("without its way back", "add `port 1 1` below node 2")),
    ("weights that differ", "mark tree", NETWORK.replace("port 2 1", "port 2 7"), ("weights of the edge differ: 7 at node 1, 1 at node 2",)),
    ("a pointer that is an identity", "mark tree", NETWORK.replace("node 2 0", "node 2 1"), ("is an identity", "the port to node 1 is 0")),
    ("a pointer past the ports", "mark tree", NETWORK.replace("node 2 0", "node 2 5"), ("port 5, which it does not have",)),
    ("labels of another network", "verify tree", BOTH.replace("label 2", "label 3"), ("label of node 2 is due", "another network")),
    ("a label too few", "verify tree", BOTH.replace("label 2 6 48\n", ""), ("label of node 2 is due",)),
    ("a label too many", "verify tree", BOTH.replace("48\n", "48\nlabel 3 0 -\n"), ("every node has its label",)),
    ("an edit of an edge that is not there", "recheck tree", BOTH + "edits\nunlink 1 3\nround\nend\n", ("no node 3",)),
    ("a node with ports leaves", "recheck tree", BOTH + "edits\nleave 2\nround\nend\n", ("has ports to 1", "unlink")),
    ("an edit points at an identity", "recheck tree", BOTH + "edits\nstate 2 1 0 0\nround\nend\n", ("port to 1 is 0",)),
    ("a message arrives before it is sent", "simulate tree", BOTH + "schedule\narrive 1\nemit 1 0\nend\n", ("emit 1, and above it are 0",)),
    ("an emit through an identity", "simulate tree", BOTH + "schedule\nemit 1 2\nend\n", ("the port to node 2 is 0",)),
    ("an event of a node that is not there", "watch tree", BOTH + "watch\nrestart 7\nlook\nend\n", ("node 7, which is not there",)),
    ("an unknown word in a rule", "code", RULES + "rule eithr(eq(id,0),eq(id,1))\nend\n", ("`eithr`", "did you mean `either`")),
    ("a rule with an operand too few", "code", RULES + "rule eq(my.depth)\nend\n", ("`eq` takes 2 operands",)),
    ("a blank in a rule", "code", RULES + "rule eq(my.depth, 0)\nend\n", ("blank in the rule",)),
    ("a rule that is a number", "code", RULES + "rule my.depth\nend\n", ("a formula is due",)),
    ("a field with a great letter", "code", "rules\nfield Depth num\nend\n", ("no name of a field",)),
    ("a field of another kind", "code", "rules\nfield depth number\nend\n", ("`num` or `bit`",)),
    ("a rule set without fields", "code", "rules\nend\n", ("one field at least",)),
    ("an unknown field", "code", RULES + "rule eq(my.dept,0)\nend\n", ("names no field", "did you mean `depth`")),
    ("nb outside of all quantifiers", "code", RULES + "rule eq(nb.depth,0)\nend\n", ("outside of all quantifiers",)),
    ("three quantifiers inside one another", "code", RULES + "rule all(any(all(eq(id,0))))\nend\n", ("more than 2 quantifiers",)),
    ("a field twice", "code", RULES + "field depth num\nend\n", ("the name of a field above it",)),
    ("a label that cannot be converted", "convert tree", BOTH.replace("6 48", "0 -"), ("cannot be read as one of tree",)),
    ("no ring for splice", "splice tree", BOTH, ("no ring", "1 ports")),
    ("a ring without a pair", "splice forest", RING, ("no two edges of the ring may be crossed",)),
    ("a ring without a pair by rules", "splice", RING + "rules\nfield chosen bit\nend\n", ("no two edges of the ring may be crossed",)),
    ("a schedule for splice", "splice forest", RING + "schedule\nend\n", ("`splice` reads network, labels, and nothing more",)),
    ("too many looks", "watch tree", BOTH + "watch\n" + "look\n" * 129 + "end\n", ("limit", "plsdesk trace")),
    ("two roots", "mark tree", NETWORK.replace("node 2 0", "node 2 -"), ("2 of its 2 nodes have no pointer",)),
    ("no leader", "mark leader", NETWORK, ("0 of its 2 nodes have mark 1",)),
)


class TheMistakes(unittest.TestCase):
    """Each mistake of the table gets its sentence."""

    def test_each_gets_its_sentence(self) -> None:
        pls = program()
        for name, words, text, wanted in MISTAKES:
            with self.subTest(name):
                given = text.encode("utf-8")
                answer = pls.run(words.split() if isinstance(words, str) else words, given)
                self.assertNotEqual(answer.status.value, 0, f"pls took it: {answer.text}")
                said = "\n".join(one.text() for one in explain(answer, given))
                for phrase in wanted:
                    self.assertIn(phrase, said, f"pls answered {answer.text!r}")

    def test_the_table_is_long_enough(self) -> None:
        self.assertGreaterEqual(len(MISTAKES), 40)
        self.assertEqual(len({name for name, *_ in MISTAKES}), len(MISTAKES))

    def test_whatever_is_wrong_something_is_said(self) -> None:
        dice = random.Random(11)
        good = [(words, text) for _, words, text, _ in MISTAKES if isinstance(words, str) and len(text) < 1000]
        for _ in range(150):
            words, text = dice.choice(good)
            lines = text.split("\n")
            lines[dice.randrange(len(lines))] = dice.choice(("", "end", "node 2 0", "port 1 1", "look", "label 1 4 50", "emit 1 0", "round"))
            given = "\n".join(lines).encode()
            answer = program().run(words.split(), given)
            with self.subTest(words=words, text=given):
                self.assertTrue(all(one.what for one in explain(answer, given)))


if __name__ == "__main__":
    unittest.main()
