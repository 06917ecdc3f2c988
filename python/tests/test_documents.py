"""The documents of the desk: each command writes what stands behind it, and the pictures are as the desk draws them."""

from __future__ import annotations

import argparse
import contextlib
import io
import os
import re
import subprocess
import tempfile
import unittest
import unittest.mock
from pathlib import Path

from plsdesk.command_line import parser
from plsdesk.pictures.layout import places_of
from plsdesk.pictures.scene import scene_of
from plsdesk.pictures.svg import svg_picture
from tests import TOP, environment, program
from tests.test_traces import chicago, protocol

DOCUMENTS = ("docs/DESK.md", "docs/TUTORIAL_DESK.md")
MARK = "@@ behind the command"


def commands(document: str) -> list[tuple[str, str]]:
    """The commands of a document, each with the text that it is to write."""
    text = (TOP / document).read_text(encoding="utf-8")
    found: list[tuple[str, str]] = []
    for block in re.findall(r"^```\n(.*?)^```$", text, re.DOTALL | re.MULTILINE):
        for command in re.findall(r"^\$ (.*)\n((?:(?!\$ ).*\n)*)", block, re.MULTILINE):
            found.append(command)
    return found


def _help(command: str) -> str:
    """The help of a command."""
    commands_of = next(action for action in parser()._actions if isinstance(action, argparse._SubParsersAction))
    return str(commands_of.choices[command].format_help())


class Documents(unittest.TestCase):
    """What the documents show."""

    def test_commands_write_what_stands_there(self) -> None:
        for document in DOCUMENTS:
            shown = commands(document)
            self.assertGreater(len(shown), 10)
            script = "".join(f"{command}\necho; echo '{MARK}'\n" for command, _ in shown)
            with tempfile.TemporaryDirectory() as folder:
                Path(folder, "examples").symlink_to(TOP / "examples")
                Path(folder, "pls").symlink_to(program().path)
                known = environment()
                done = subprocess.run(["sh", "-c", script], stdout=subprocess.PIPE, stderr=subprocess.STDOUT, text=True,
                                      check=False, cwd=folder, env=known | {"PATH": f"{TOP / 'python/bin'}{os.pathsep}{known['PATH']}"})
            written = done.stdout.split(f"\n{MARK}\n")
            self.assertEqual(len(written), len(shown) + 1)
            for (command, wanted), got in zip(shown, written):
                with self.subTest(command):
                    self.assertEqual(got, wanted)

    def test_python_writes_what_its_comments_say(self) -> None:
        text = (TOP / "docs/DESK.md").read_text(encoding="utf-8")
        code = next(iter(re.findall(r"^```python\n(.*?)^```$", text, re.DOTALL | re.MULTILINE)))
        try:
            import networkx
        except ImportError:
            self.skipTest("networkx is not installed")
        del networkx
        out = io.StringIO()
        with contextlib.redirect_stdout(out), unittest.mock.patch.dict(os.environ, environment()):
            exec(code, {})
        self.assertEqual(out.getvalue().splitlines(), re.findall(r"    # (.*)$", code, re.MULTILINE))

    def test_every_option_is_in_the_document(self) -> None:
        text = "".join((TOP / document).read_text(encoding="utf-8") for document in DOCUMENTS)
        for command in ("import", "mark", "verify", "explain", "decode", "trace", "draw"):
            for option in self._options(command):
                self.assertIn(option, text, command)

    @staticmethod
    def _options(command: str) -> list[str]:
        """The options of a command, but for those that say names of attributes, of which one stands for all."""
        words = re.findall(r"--[a-z-]+", _help(command))
        return [word for word in words if word not in ("--help", "--title", "--output", "--pointer-from", "--mark-from", "--num-from", "--network",
                                                       "--input")]


class ThePictures(unittest.TestCase):
    """The pictures of the tutorial."""

    def test_pictures_are_drawn_so(self) -> None:
        moment = protocol()[7]
        places = places_of(scene_of(chicago()))
        drawn = {"backbone.svg": svg_picture(scene_of(chicago())), "loop.svg": svg_picture(scene_of(moment.network, moment.report), places)}
        for name, svg in drawn.items():
            path = TOP / "docs/pictures" / name
            if os.environ.get("DRAW_ANEW"):
                path.write_text(svg, encoding="utf-8")
            self.assertEqual(path.read_text(encoding="utf-8"), svg, f"{name}: DRAW_ANEW=1 draws it again")


if __name__ == "__main__":
    unittest.main()
