"""The command line: each command, its files, its status, and its errors on standard error."""

from __future__ import annotations

import argparse
import contextlib
import io
import json
import os
import re
import shutil
import subprocess
import sys
import tempfile
import unittest
from pathlib import Path
from unittest import mock

from plsdesk.answers import parse_answer
from plsdesk.command_line import main, parser
from plsdesk.fault import DeskError
from tests import TOP, environment

EXAMPLES = TOP / "examples"


class Commands(unittest.TestCase):
    """Each command in a folder of its own."""

    def setUp(self) -> None:
        self.folder = tempfile.TemporaryDirectory()
        self.addCleanup(self.folder.cleanup)

    def desk(self, *words: str, status: int = 0, given: str = "") -> tuple[str, str]:
        """Runs the desk in the folder, and gives what it wrote to standard output and to standard error.

        It runs in this process, or in one of its own where it is given something on standard input.
        """
        if given:
            done = subprocess.run([sys.executable, "-m", "plsdesk", *words], input=given, capture_output=True, text=True, check=False,
                                  cwd=self.folder.name, env=environment())
            self.assertEqual(done.returncode, status, done.stdout + done.stderr)
            return done.stdout, done.stderr
        out, error = io.StringIO(), io.StringIO()
        with (contextlib.chdir(self.folder.name), contextlib.redirect_stdout(out), contextlib.redirect_stderr(error),
              mock.patch.dict(os.environ, environment())):
            self.assertEqual(main(list(words)), status)
        return out.getvalue(), error.getvalue()

    def text(self, file: str) -> str:
        """The text of a file in the folder."""
        return Path(self.folder.name, file).read_text(encoding="utf-8")

    def test_from_import_to_picture_in_two_commands(self) -> None:
        for file in ("abilene.gml", "petersen.graphml", "florentine.adjlist", "racks.dot", "sensors.csv"):
            self.desk("import", str(EXAMPLES / file), "--tree", "bfs", "-o", "net.txt")
            self.desk("draw", "net.txt", "-o", "net.svg")
            self.assertTrue(self.text("net.svg").startswith("<svg "), file)
        self.assertIn("hall", self.text("net.svg"))

    def test_the_way_of_a_network(self) -> None:
        self.desk("import", str(EXAMPLES / "abilene.gml"), "--tree", "mst", "--root", "Kansas City", "--mark", "Chicago", "--count", "-o", "net.txt")
        self.assertEqual(json.loads(self.text("net.txt.names"))["9"], "Chicago")
        for scheme in ("mst", "leader", "count"):
            self.desk("mark", scheme, "net.txt", "-o", "labels.txt")
            self.assertEqual(self.desk("verify", scheme, "net.txt", "labels.txt")[0], "all nodes accept\n11 nodes accept, 0 reject\n")
        out, _ = self.desk("decode", "count", "labels.txt", "--network", "net.txt")
        self.assertIn("Seattle: root=1 own=1 parent=1 depth=0 size=11 total=11\n", out)
        values, _ = self.desk("decode", "count", "labels.txt", "--json", "--network", "net.txt")
        Path(self.folder.name, "values.json").write_text(values, encoding="utf-8")
        self.assertEqual(self.desk("decode", "count", "values.json", "--encode", "--network", "net.txt")[0], self.text("labels.txt"))

    def test_names_come_back(self) -> None:
        self.desk("import", str(EXAMPLES / "abilene.gml"), "--tree", "bfs", "-o", "net.txt")
        self.desk("mark", "tree", "net.txt", "-o", "labels.txt")
        Path(self.folder.name, "net.txt").write_text(re.sub(r"node 7 \d", "node 7 -", self.text("net.txt")))
        out, _ = self.desk("verify", "tree", "net.txt", "labels.txt", status=1)
        self.assertIn("node 7 (Atlanta): rejects by rule 4 of tree", out)
        self.assertIn("10 nodes accept, 1 reject", out)
        _, error = self.desk("mark", "tree", "net.txt", status=1)
        self.assertIn("2 of its 11 nodes have no pointer: Seattle, Atlanta", error)

    def test_explain(self) -> None:
        out, _ = self.desk("explain", "mark", "tre", status=2)
        self.assertIn("did you mean `tree`?", out)
        out, _ = self.desk("explain", "-i", str(EXAMPLES / "wrong-root.txt"), "verify", "tree", "--json", status=1)
        self.assertIn("node 2: rejects by rule 3 of tree: every neighbour's root is the own root\n    it fails at port 1", out)
        out, _ = self.desk("explain", "mark", "tree", given="network\r\n", status=3)
        self.assertIn("CR LF", out)

    def test_a_line_is_one_of_its_file(self) -> None:
        racks = str(EXAMPLES / "racks.dot")
        self.desk("import", racks, "-o", "net.txt")
        self.desk("mark", "tree", "net.txt", "-o", "labels.txt")
        Path(self.folder.name, "upper.txt").write_text(self.text("labels.txt").replace("label 3 6 4", "label 3 6 A"))
        Path(self.folder.name, "edits.txt").write_text("edits\nround\nend\n")
        Path(self.folder.name, "empty.txt").write_text("")
        Path(self.folder.name, "values.json").write_text('{"Oslo": {}}')
        line = 1 + self.text("upper.txt").split("\n").index(next(one for one in self.text("upper.txt").split("\n") if " A" in one))
        self.assertTrue(self.desk("verify", "tree", racks, "upper.txt", status=3)[1].startswith(f"upper.txt, line {line}: "))
        self.assertTrue(self.desk("verify", "tree", racks, "empty.txt", status=3)[1].startswith("empty.txt: the input ends here"))
        _, error = self.desk("verify", "tree", racks, "labels.txt", "--schedule", "edits.txt", status=3)
        self.assertTrue(error.startswith("edits.txt, line 1: an edits part begins here"), error)
        out, _ = self.desk("explain", "-i", "net.txt", "-i", "upper.txt", "verify", "tree", status=3)
        self.assertIn(f", which is line {line} of upper.txt: ", out)
        self.assertIn("upper.txt, line ", self.desk("decode", "tree", "upper.txt", status=2)[1])
        self.assertIn("say --network", self.desk("decode", "tree", "values.json", "--encode", status=2)[1])

    def test_messages(self) -> None:
        Path(self.folder.name, "schedule.txt").write_text("schedule\nemit 1 0\narrive 1\nend\n")
        self.desk("import", "-", "--format", "edges", "--tree", "bfs", "-o", "net.txt", given="1 2\n")
        self.desk("mark", "tree", "net.txt", "-o", "labels.txt")
        out, _ = self.desk("verify", "tree", "net.txt", "labels.txt", "--schedule", "schedule.txt", status=1)
        self.assertIn("node 1: waits: since its last restart it has heard nothing at port 0 (to node 2)", out)
        self.assertIn("1 nodes accept, 0 reject, 1 wait", out)

    def test_trace(self) -> None:
        Path(self.folder.name, "steps.json").write_text('[{"name": "a crash", "states": {"r1": {"pointer": null}}}]')
        out, _ = self.desk("trace", "tree", str(EXAMPLES / "racks.dot"), "steps.json", "--page", "page.html", "--title", "Racks", status=1)
        self.assertIn("1     a crash       r1 (rule 4)", out)
        self.assertIn("<title>Racks</title>", self.text("page.html"))

    def test_draw(self) -> None:
        self.desk("import", str(EXAMPLES / "abilene.edges"), str(EXAMPLES / "abilene.states"), "-o", "net.txt")
        self.desk("mark", "mst", "net.txt", "-o", "labels.txt")
        out, _ = self.desk("draw", "net.txt", "--scheme", "mst", "--labels", "labels.txt", "--level", "2")
        self.assertIn("opacity", out)
        self.desk("draw", "net.txt", "-o", "net.dot")
        self.assertTrue(self.text("net.dot").startswith("digraph network {"))
        Path(self.folder.name, "report.txt").write_text("".join(f"node {one} accept\n" for one in range(1, 11)) + "node 11 reject 1 6\nrejecting 1\n")
        self.assertIn("rule 6", self.desk("draw", "net.txt", "--report", "report.txt")[0])

    def test_errors_are_on_standard_error(self) -> None:
        Path(self.folder.name, "wrong").write_text("{1")
        racks = str(EXAMPLES / "racks.dot")
        for words, wanted in ((("draw", racks, "--report", "wrong"), "no report of pls"), (("import",), "--made KIND:NODES"),
                              (("decode", "tree", "wrong", "--encode"), "no values as --json"), (("trace", "tree", racks, "wrong"), "no JSON"),
                              (("import", "none.edges"), "no such file"), (("import", "x.abc"), "no such file"),
                              (("draw", str(EXAMPLES / "racks.dot"), "--labels", "none"), "say --scheme E"),
                              (("decode", "tree", str(EXAMPLES / "chain.txt")), "there is no labels part"),
                              (("decode", "tre", str(EXAMPLES / "wrong-root.txt")), "`tre` is no scheme"),
                              (("mark", "tree", str(EXAMPLES / "racks.dot"), "--program", "/none"), "no program")):
            out, error = self.desk(*words, status=2)
            self.assertEqual(out, "")
            self.assertRegex(error, f"^plsdesk: .*{re.escape(wanted)}")

    def test_the_same_text_as_a_list_has_in_identities(self) -> None:
        out, error = self.desk("import", "-", "--format", "edges", given="1 2\n2 3\n3 1\n2 -> 1\n3 -> 1\n")
        self.assertEqual(out, "network\nnode 1 - 0 0\nport 2 1\nport 3 1\nnode 2 0 0 0\nport 1 1\nport 3 1\nnode 3 1 0 0\nport 2 1\nport 1 1\nend\n")
        self.assertEqual(error, "")


class OtherPrograms(unittest.TestCase):
    """What a program that is not `pls` answers."""

    def test_a_status_that_pls_has_not(self) -> None:
        for status in (-11, 8, 127):
            self.assertRaises(DeskError, parse_answer, ["mark", "tree"], status, "")


class HelpAndCompletions(unittest.TestCase):
    """What the shells are told is what the parser takes."""

    def test_completions_name_all_commands_and_options(self) -> None:
        commands = next(action.choices for action in parser()._actions if isinstance(action, argparse._SubParsersAction))
        self.assertEqual(list(commands), ["import", "mark", "verify", "explain", "decode", "trace", "draw", "completions"])
        for shell in ("bash", "zsh"):
            done = subprocess.run([sys.executable, "-m", "plsdesk", "completions", shell], capture_output=True, text=True, check=True,
                                  env=environment())
            for name, command in commands.items():
                line = next(line for line in done.stdout.splitlines() if line.strip().startswith(name + ")"))
                for action in command._actions:
                    for option in action.option_strings:
                        self.assertIn(option, line)

    @unittest.skipUnless(shutil.which("bash"), "there is no bash")
    def test_bash_completes(self) -> None:
        script = ('source <("$1" -m plsdesk completions bash); COMP_WORDS=(plsdesk mark mst); COMP_CWORD=2; _plsdesk; echo "${COMPREPLY[@]}"; '
                  'COMP_WORDS=(plsdesk tr); COMP_CWORD=1; _plsdesk; echo "${COMPREPLY[@]}"; '
                  'COMP_WORDS=(plsdesk draw --le); COMP_CWORD=2; _plsdesk; echo "${COMPREPLY[@]}"')
        done = subprocess.run(["bash", "-c", script, "bash", sys.executable], capture_output=True, text=True, check=True, env=environment())
        self.assertEqual(done.stdout, "mst\ntrace\n--level\n")

    def test_help_says_what_each_word_is(self) -> None:
        commands = next(action.choices for action in parser()._actions if isinstance(action, argparse._SubParsersAction))
        for name, command in commands.items():
            self.assertIn(name, parser().format_help())
            for action in command._actions:
                self.assertTrue(action.help or action.choices, (name, action.dest))

    def test_the_man_page_has_all_commands_of_pls(self) -> None:
        page = (TOP / "docs/pls.1").read_text(encoding="utf-8")
        for command in ("mark", "verify", "simulate", "recheck", "watch", "splice", "bound", "convert", "judge", "code", "rules", "trial"):
            self.assertRegex(page, rf"(?m)^\.B pls {command}\b")


if __name__ == "__main__":
    unittest.main()
