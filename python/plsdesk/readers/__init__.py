"""Readers and writers of the files that networks come in: one module a format, and the table of them."""

from __future__ import annotations

from collections.abc import Callable
from dataclasses import dataclass
from pathlib import Path

from plsdesk.builder import NetworkBuilder
from plsdesk.explain.form import explain_form
from plsdesk.explain.parts import HEADINGS
from plsdesk.fault import DeskError, file_fault
from plsdesk.network import Network, parse_network
from plsdesk.readers import adjacency, comma, dot, edges, gml, graphml
from plsdesk.readers.options import ReadOptions


@dataclass(frozen=True, slots=True)
class Format:
    """A format: its name, the endings of its files, and how it is read and written."""

    name: str
    endings: tuple[str, ...]
    read: Callable[[str, NetworkBuilder, ReadOptions], None]
    write: Callable[[Network], str]


FORMATS = {form.name: form for form in (
    Format("edges", (".edges", ".edgelist", ".states"), edges.read, edges.write),
    Format("adjacency", (".adj", ".adjlist"), adjacency.read, adjacency.write),
    Format("gml", (".gml",), gml.read, gml.write),
    Format("graphml", (".graphml",), graphml.read, graphml.write),
    Format("dot", (".dot", ".gv"), dot.read, dot.write),
    Format("csv", (".csv",), comma.read, comma.write),
)}

_DEFAULTS = {"weight", "pointer", "mark", "num"}


def _has_ending(path: str) -> bool:
    """Whether the ending of a file is that of a format."""
    return any(Path(path).suffix.lower() in form.endings for form in FORMATS.values())


def format_of(path: str, asked: str | None) -> Format:
    """The format that is asked for by name, or else that of the file's ending."""
    if asked is not None:
        return FORMATS[asked]
    ending = Path(path).suffix.lower()
    for form in FORMATS.values():
        if ending in form.endings:
            return form
    raise DeskError(f"the ending of {path} is that of no format", mend=f"say --format with one of {', '.join(FORMATS)}")


def read_files(paths: list[str], asked: str | None, options: ReadOptions) -> Network:
    """The network of one or more files, which say their nodes, edges and states together.

    A single file that begins with the line `network` is read as the text of `pls`.
    """
    builder = NetworkBuilder(options.lightest, options.without_loops)
    for path in paths:
        text = read_text(path)
        file = "standard input" if path == "-" else path
        if not text.strip() and len(paths) == 1:
            raise DeskError("the file is empty", file)
        first = text.partition("\n")[0].rstrip()
        if first == "network" and len(paths) == 1 and asked is None:
            return _own_text(file, text)
        if first in HEADINGS and asked is None and not _has_ending(path):
            raise DeskError(f"`{first}` begins another part of the text of pls, and a network is due here" if first != "network" else
                            "the text of pls is a whole network, and is read from one file alone", f"{file}, line 1")
        builder.source = f"{file}, "
        try:
            format_of(path, asked).read(text, builder, options)
        except DeskError as error:
            raise DeskError(error.what, f"{file}, {error.place}" if error.place else file, error.mend) from error
    _attributes_are_there(builder, options)
    return builder.build()


def _attributes_are_there(builder: NetworkBuilder, options: ReadOptions) -> None:
    """An attribute that is asked for by another name than its own has to stand somewhere."""
    asked = {"edge": ([] if options.unweighted else [options.weight]), "node": [options.pointer, options.mark, options.number]}
    for kind, names in asked.items():
        for name in names if kind == "node" or builder.has_edges() else ():
            if name not in {*_DEFAULTS, *builder.attributes[kind]}:
                there = ", ".join(sorted(builder.attributes[kind])) or "none"
                raise DeskError(f"no {kind} has the attribute {name}", mend=f"attributes of {kind}s here: {there}")


def _own_text(file: str, text: str) -> Network:
    """The network of a text of `pls`; what is wrong with a line is said as `explain` says it."""
    try:
        return parse_network(text)
    except DeskError as error:
        told = explain_form(["mark", "tree"], text.encode("utf-8"), int(error.place.removeprefix("line ")))
        raise DeskError(told.what, f"{file}, {told.place}", told.mend) from error


def read_text(path: str) -> str:
    """The text of a file, or of standard input for `-`; its lines end as they do in the file."""
    try:
        with open(0 if path == "-" else path, encoding="utf-8-sig", newline="", closefd=path != "-") as file:
            return file.read()
    except (OSError, UnicodeDecodeError) as error:
        raise DeskError(file_fault(error), path) from error
