"""The command line `plsdesk`."""

from __future__ import annotations

import argparse
import sys
from collections.abc import Callable
from typing import TypeAlias

from plsdesk import commands
from plsdesk.fault import DeskError
from plsdesk.program import VARIABLE
from plsdesk.readers import FORMATS
from plsdesk.trees import TREES

Subparsers: TypeAlias = "argparse._SubParsersAction[argparse.ArgumentParser]"

_SCHEME = "a scheme of pls: tree, forest, bipartite, acyclic, leader, count, spt, mst, pathmax, map(P), and(E,E) or or(E,E)"
_NETWORK = "a file with a network, as pls reads it or of any format that `import` reads"


def parser() -> argparse.ArgumentParser:
    """The parser of all commands."""
    top = argparse.ArgumentParser(
        prog="plsdesk", description="A desk over the proved program pls. It judges nothing by itself: every verdict is one of pls.",
        epilog="Status: that of pls where it is run (0 all accept, 1 some reject, 3 refused ..), 2 where the desk has an error.")
    subparsers = top.add_subparsers(dest="command", required=True, metavar="COMMAND")
    _import(subparsers)
    _mark(subparsers)
    _verify(subparsers)
    _explain(subparsers)
    _decode(subparsers)
    _trace(subparsers)
    _draw(subparsers)
    shells = _command(subparsers, "completions", "write the completions of a shell", commands.completions, False)
    shells.add_argument("shell", choices=("bash", "zsh"))
    shells.set_defaults(parser=top)
    return top


def _command(subparsers: Subparsers, name: str, what: str, run: Callable[[argparse.Namespace], int], program: bool = True,
             output: bool = False) -> argparse.ArgumentParser:
    one = subparsers.add_parser(name, help=what, description=what[0].upper() + what[1:] + ".")
    one.set_defaults(run=run)
    if program:
        one.add_argument("--program", metavar="FILE", help=f"the program pls; else the one that {VARIABLE} names, ./pls, or pls on the search path")
    if output:
        one.add_argument("-o", "--output", metavar="FILE", help="write there and not to standard output")
    return one


def _import(subparsers: Subparsers) -> None:
    one = _command(subparsers, "import", "make the text of a network, or a file of another format", commands.import_network, False, True)
    one.add_argument("files", nargs="*", metavar="FILE", help="files that say nodes, edges and states together; - is standard input")
    one.add_argument("--made", metavar="KIND:NODES", help="no file, but a path, hub, grid or ring of so many nodes, as grid:100")
    one.add_argument("--format", choices=list(FORMATS), help="the format of the files; else their endings say it")
    one.add_argument("--to", choices=list(FORMATS), help="write this format and not the text of pls")
    one.add_argument("--tree", choices=list(TREES), help="have nodes point along a BFS, shortest-path or minimum spanning tree of each component")
    one.add_argument("--root", action="append", default=[], metavar="NODE", help="the root of the tree of its component; else its smallest node")
    one.add_argument("--mark", action="append", default=[], metavar="NODE", help="give this node the mark 1")
    one.add_argument("--count", action="store_true", help="give each node the number of nodes in its component")
    for what, attribute in (("weight", "weight"), ("pointer", "pointer"), ("mark", "mark"), ("num", "num")):
        one.add_argument(f"--{what}-from", default=attribute, metavar="ATTRIBUTE", help=f"the attribute that says the {what}; else `{attribute}`")
    one.add_argument("--unweighted", action="store_true", help="have all edges weigh 1")
    one.add_argument("--lightest", action="store_true", help="keep the lightest of parallel links")
    one.add_argument("--drop-loops", action="store_true", help="leave edges from a node to itself out")


def _mark(subparsers: Subparsers) -> None:
    one = _command(subparsers, "mark", "write labels that prove a property, or say which component lacks it", commands.mark, True, True)
    one.add_argument("scheme", metavar="E", help=_SCHEME)
    one.add_argument("network", metavar="NETWORK", help=_NETWORK)
    one.add_argument("--code", choices=("gamma", "delta"), default="gamma", help="the number code of the labels")


def _verify(subparsers: Subparsers) -> None:
    one = _command(subparsers, "verify", "say which nodes reject or wait, by which rule, and at which port", commands.verify)
    one.add_argument("scheme", metavar="E", help=_SCHEME)
    one.add_argument("network", metavar="NETWORK", help=_NETWORK)
    one.add_argument("labels", metavar="LABELS", help="a file with a labels part")
    one.add_argument("--schedule", metavar="FILE", help="a schedule part: which messages are sent and arrive")


def _explain(subparsers: Subparsers) -> None:
    one = _command(subparsers, "explain", "run pls on words and an input, and say its answer in words", commands.explain_run)
    one.add_argument("-i", "--input", action="append", default=[], metavar="FILE",
                     help="files that make the input, in their order; else standard input")
    one.add_argument("words", nargs=argparse.REMAINDER, metavar="WORDS", help="the words of pls, as `verify tree`")


def _decode(subparsers: Subparsers) -> None:
    one = _command(subparsers, "decode", "say what labels say, or make labels of values", commands.decode, False, True)
    one.add_argument("scheme", metavar="E", help=_SCHEME)
    one.add_argument("labels", metavar="LABELS", help="a file with a labels part; with --encode, values as JSON")
    one.add_argument("--network", metavar="NETWORK", help="the network, for the names of its nodes")
    one.add_argument("--json", action="store_true", help="write the values as JSON")
    one.add_argument("--encode", action="store_true", help="read values, as --json writes them, and write a labels part")
    one.add_argument("--code", choices=("gamma", "delta"), default="gamma", help="the number code in which --encode writes")


def _trace(subparsers: Subparsers) -> None:
    one = _command(subparsers, "trace", "play the steps of a protocol, and say at which step who notices", commands.trace, True, True)
    one.add_argument("scheme", metavar="E", help=_SCHEME)
    one.add_argument("network", metavar="NETWORK", help=_NETWORK)
    one.add_argument("steps", metavar="STEPS", help="a list of steps as JSON")
    one.add_argument("--labels", metavar="FILE", help="the labels at the start; else those that pls mark writes")
    one.add_argument("--page", metavar="FILE", help="write a page that a browser steps through")
    one.add_argument("--title", help="the title of the page")


def _draw(subparsers: Subparsers) -> None:
    one = _command(subparsers, "draw", "draw a network as SVG, or as DOT where the file ends in .dot or .gv", commands.draw, True, True)
    one.add_argument("network", metavar="NETWORK", help=_NETWORK)
    one.add_argument("--scheme", metavar="E", help="the scheme of the labels")
    one.add_argument("--labels", metavar="FILE", help="labels: nodes that reject are red")
    one.add_argument("--report", metavar="FILE", help="what pls wrote: nodes that reject are red, those that wait yellow")
    one.add_argument("--level", type=int, metavar="N", help="draw the fragments of this level of mst, from 1")
    one.add_argument("--graphviz", action="store_true", help="have Graphviz lay the picture out")


def main(words: list[str] | None = None) -> int:
    """Runs a command, and gives the exit status."""
    said = parser().parse_args(words)
    try:
        status: int = said.run(said)
    except DeskError as error:
        print(f"plsdesk: {error}", file=sys.stderr)
        return 2
    except BrokenPipeError:
        return 2
    return status


if __name__ == "__main__":
    sys.exit(main())
