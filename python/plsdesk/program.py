"""The program `pls` as a child process."""

from __future__ import annotations

import os
import subprocess
from dataclasses import dataclass
from pathlib import Path
from shutil import which

from plsdesk.answers import Answer, parse_answer
from plsdesk.fault import DeskError

VARIABLE = "PLS"  # the environment variable that names the program


@dataclass(frozen=True, slots=True)
class Program:
    """The file of the program. Each call runs it once, and waits for it to end."""

    path: str

    def run(self, words: list[str], text: str | bytes = b"") -> Answer:
        """Runs the program on words with a text as its standard input, and gives what it answered."""
        given = text.encode("utf-8") if isinstance(text, str) else text
        try:
            done = subprocess.run([self.path, *words], input=given, capture_output=True, check=False)
        except OSError as error:
            raise DeskError(f"the program cannot be run: {error.strerror}", self.path) from error
        return parse_answer(words, done.returncode, done.stdout.decode("ascii", "replace"))


def find_program(path: str | None = None) -> Program:
    """The program at a path, or else the one that `PLS` names, or `./pls`, or `pls` on the search path."""
    for candidate in (path, os.environ.get(VARIABLE), "./pls", which("pls")):
        if candidate:
            if Path(candidate).is_file() and os.access(candidate, os.X_OK):
                return Program(str(Path(candidate).resolve()))
            if candidate != "./pls":
                raise DeskError("this is no program that can be run", candidate, "`make pls` builds it")
    raise DeskError("the program pls is not found", mend=f"`make pls` builds ./pls; --program or {VARIABLE} says where another one is")
