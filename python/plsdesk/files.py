"""Files that the command line reads and writes, and the names that stand beside a network."""

from __future__ import annotations

import json
import sys
from collections.abc import Hashable
from pathlib import Path

from plsdesk.fault import DeskError, file_fault
from plsdesk.network import Network
from plsdesk.readers import read_files, read_text
from plsdesk.readers.options import ReadOptions

NAMES = ".names"  # behind the name of a network's file: the names of its nodes, as JSON


def read_network(paths: list[str], form: str | None = None, options: ReadOptions = ReadOptions()) -> Network:
    """The network of one or more files of any format, with the names that stand beside it."""
    network = read_files(paths, form, options)
    beside = Path(paths[0] + NAMES)
    if len(paths) == 1 and not network.names and beside.is_file():
        try:
            said: dict[str, Hashable] = json.loads(beside.read_text(encoding="utf-8"))
            return network.with_names({int(identity): name for identity, name in said.items()})
        except (ValueError, AttributeError) as error:
            raise DeskError("these are no names of nodes", str(beside), "`plsdesk import` writes them anew") from error
    return network


def write_network(network: Network, out: str | None) -> None:
    """Writes the text of a network, and beside it the names of its nodes where they have some."""
    write(network.text(), out)
    if out is None and network.names:
        print("plsdesk: the nodes are numbered, and their names are not written; -o FILE keeps them beside it", file=sys.stderr)
    elif out is not None:
        beside = Path(out + NAMES)
        if network.names:
            names = {str(identity): str(name) for identity, name in network.names.items()}
            write(json.dumps(names, ensure_ascii=False, indent=0) + "\n", str(beside))
        else:
            beside.unlink(missing_ok=True)


def write(text: str, out: str | None) -> None:
    """Writes a text to a file, or to standard output."""
    if out is None:
        sys.stdout.write(text)
        return
    try:
        Path(out).write_text(text, encoding="utf-8")
    except OSError as error:
        raise DeskError(file_fault(error), out) from error


def _bytes(path: str) -> bytes:
    try:
        return Path(path).read_bytes()
    except OSError as error:
        raise DeskError(file_fault(error), path) from error


def read_bytes(paths: list[str]) -> bytes:
    """The bytes of files one behind another, or those of standard input where no file is given."""
    return b"".join(map(_bytes, paths)) if paths else sys.stdin.buffer.read()


__all__ = ["read_bytes", "read_network", "read_text", "write", "write_network"]
