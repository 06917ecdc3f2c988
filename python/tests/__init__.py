"""Tests of the desk. They run the program that the environment variable PLS names; else the newer of `pls` beside
`python/` and the one that the gate left in `crates/pls_main/out`.
"""

from __future__ import annotations

import os
from pathlib import Path

from plsdesk.program import Program, find_program

TOP = Path(__file__).resolve().parents[2]

# The times in tests are those of an idle machine; one on which they run may be so many times slower, or as busy.
SLOWER = 5


def program() -> Program:
    """The program that the tests run."""
    if named := os.environ.get("PLS"):
        return find_program(named)
    built = [path for path in (TOP / "pls", TOP / "crates/pls_main/out/pls_main") if path.is_file()]
    newest = sorted(built, key=lambda path: path.stat().st_mtime)
    return find_program(str(newest[-1] if newest else TOP / "pls"))


def environment() -> dict[str, str]:
    """The environment in which a child process finds the desk and the program."""
    return os.environ | {"PYTHONPATH": str(TOP / "python"), "PLS": program().path}
