"""What each command of `plsdesk` does. Each gives the exit status."""

from __future__ import annotations

import json
import sys
from argparse import Namespace
from dataclasses import replace
from pathlib import Path

from plsdesk.answers import Answer, Report, Status, parse_report
from plsdesk.completions import completions_text
from plsdesk.explain import explain
from plsdesk.fault import DeskError
from plsdesk.files import read_bytes, read_network, read_text, write, write_network
from plsdesk.labels import LabelText, labels_text, parse_labels
from plsdesk.made import made
from plsdesk.limits import MOST_WORD
from plsdesk.network import Network, decimal
from plsdesk.pictures.graphviz import dot_picture, graphviz_svg
from plsdesk.pictures.page import page
from plsdesk.pictures.scene import scene_of
from plsdesk.pictures.svg import svg_picture
from plsdesk.program import find_program
from plsdesk.readers import FORMATS
from plsdesk.readers.options import ReadOptions
from plsdesk.running import play
from plsdesk.schemes import Value, parse_scheme, show
from plsdesk.tables import table
from plsdesk.traces import Trace, label_bits, parse_steps
from plsdesk.trees import components, point_along


def import_network(said: Namespace) -> int:
    """A network from files of other formats, with pointers, marks and numbers on request."""
    options = ReadOptions(said.weight_from, said.pointer_from, said.mark_from, said.num_from, said.unweighted, said.lightest, said.drop_loops)
    if bool(said.files) == bool(said.made):
        raise DeskError("import takes files, or --made KIND:NODES", mend="as in `plsdesk import network.gml`")
    network = made(said.made) if said.made else read_network(said.files, said.format, options)
    if said.tree is not None:
        point_along(network, said.tree, [network.identity_of(root) for root in said.root])
    nodes = network.by_identity()
    for name in said.mark:
        nodes[network.identity_of(name)].state.mark = 1
    if said.count:
        for component in components(network):
            for identity in component:
                nodes[identity].state.number = len(component)
    if said.to is None:
        write_network(network, said.output)
    else:
        write(FORMATS[said.to].write(network), said.output)
    return 0


def _told(answer: Answer, network: Network, *behind: tuple[str, str]) -> int:
    """Says an answer in words: where it is a verdict, on standard output, else on standard error. Behind the network
    stood the texts of these files."""
    out = sys.stdout if answer.reports else sys.stderr
    pieces = [("", network.text()), *behind]
    for one in explain(answer, "".join(text for _, text in pieces).encode("utf-8"), network.names):
        file, line = _line_of(one.place, pieces)
        place = one.place if not file else f"{file}, line {line}" if line else file
        print(replace(one, place=place).text(), file=out)
    return answer.status.value


def _line_of(place: str, pieces: list[tuple[str, str]]) -> tuple[str, int]:
    """The file in which a line of an input lies that was joined of files, and its number there, or 0 behind all of
    them; no file where the place is no line."""
    if not place.startswith("line "):
        return "", 0
    line = int(place.removeprefix("line "))
    for file, text in pieces:
        count = text.count("\n") + (file == pieces[-1][0] and not text.endswith("\n") and text != "")
        if line <= count:
            return file, line
        line -= count
    return pieces[-1][0], 0


def mark(said: Namespace) -> int:
    """The labels of a network."""
    network = read_network([said.network])
    code = ["--code", said.code] if said.code != "gamma" else []
    answer = find_program(said.program).run(["mark", said.scheme, *code], network.text())
    if answer.status is not Status.DONE:
        return _told(answer, network)
    write(answer.text, said.output)
    return 0


def verify(said: Namespace) -> int:
    """Which nodes reject or wait, in words."""
    network = read_network([said.network])
    files = [said.labels] if said.schedule is None else [said.labels, said.schedule]
    behind = [(file, read_text(file)) for file in files]
    command = "verify" if said.schedule is None else "simulate"
    answer = find_program(said.program).run([command, said.scheme], network.text() + "".join(text for _, text in behind))
    status = _told(answer, network, *behind)
    if answer.reports:
        _summary(answer.reports[-1])
    return status


def _summary(report: Report) -> None:
    rejecting, waiting = len(report.ids("reject")), len(report.ids("waiting"))
    waits = f", {waiting} wait" if waiting else ""
    print(f"{len(report.verdicts) - rejecting - waiting} nodes accept, {rejecting} reject{waits}")


def explain_run(said: Namespace) -> int:
    """Runs `pls` on words and an input, and says its answer in words."""
    pieces = [(file, read_bytes([file]).decode("utf-8", "replace")) for file in said.input]
    text = read_bytes(said.input)
    answer = find_program(said.program).run(said.words, text)
    names = read_network([said.input[0]]).names if said.input and Path(said.input[0] + ".names").is_file() else {}
    print(answer.text.splitlines()[0] if answer.text else f"(nothing, with the status {answer.status.value})")
    for one in explain(answer, text, names):
        file, line = _line_of(one.place, pieces) if len(pieces) > 1 else ("", 0)
        print(replace(one, place=f"{one.place}, which is line {line} of {file}" if line else one.place).text())
    return answer.status.value


def decode(said: Namespace) -> int:
    """What labels say; or, with `--encode`, the labels that say values."""
    network = read_network([said.network]) if said.network else Network([])
    scheme = parse_scheme(said.scheme)
    if said.encode:
        return _encode(said, network)
    labels = _labels(said.labels)
    lines: list[str] = []
    shown: dict[str, Value | None] = {}
    for identity, bits_of in labels.bits.items():
        name = str(network.name(identity))
        try:
            shown[name] = scheme.decode(bits_of, labels.code)
            lines.append(f"{name}: {show(shown[name] or {})}")
        except DeskError as error:
            shown[name] = None
            lines.append(f"{name}: cannot be read as a label of {said.scheme}: {error}")
    write(json.dumps(shown, ensure_ascii=False, indent=1) + "\n" if said.json else "\n".join(lines) + "\n", said.output)
    return 0 if all(value is not None for value in shown.values()) else 1


def _encode(said: Namespace, network: Network) -> int:
    """Labels of values, which a JSON object has by the names of nodes, or by their identities."""
    try:
        values: dict[str, Value | str] = json.loads(read_text(said.labels))
        identities = {one: network.identity_of(one) if said.network else _identity(one) for one in values}
    except (ValueError, TypeError) as error:
        raise DeskError(f"these are no values as --json writes them: {error}", said.labels) from error
    except DeskError as error:
        raise _in_file(error, said.labels) from error
    bits = {identities[one]: label_bits(value, said.scheme, said.code, network) for one, value in values.items()}
    write(labels_text(LabelText(said.code, dict(sorted(bits.items())))), said.output)
    return 0


def _labels(file: str) -> LabelText:
    try:
        return parse_labels(read_text(file))
    except DeskError as error:
        raise _in_file(error, file) from error


def _in_file(error: DeskError, file: str) -> DeskError:
    """The same error, with the file in front of its place where it is not there yet."""
    if error.place == file:
        return error
    return DeskError(error.what, f"{file}, {error.place}" if error.place else file, error.mend)


def _identity(word: str) -> int:
    identity = decimal(word, MOST_WORD)
    if identity is None:
        raise DeskError(f"`{word}` is no identity", mend="where nodes have names, say --network")
    return identity


def trace(said: Namespace) -> int:
    """The table of a trace, and a page that steps through it."""
    program = find_program(said.program)
    network = read_network([said.network])
    if said.labels is not None:
        labels = _labels(said.labels)
    else:
        answer = program.run(["mark", said.scheme], network.text())
        if answer.status is not Status.DONE:
            return _told(answer, network)
        labels = parse_labels(answer.text)
    try:
        steps = parse_steps(read_text(said.steps))
    except DeskError as error:
        raise _in_file(error, said.steps) from error
    played = Trace(said.scheme, network, labels.code, labels.bits, steps)
    try:
        moments = play(program, played, lambda step, of: print(f"plsdesk: step {step} of {of}", file=sys.stderr) if of > 128 else None)
    except DeskError as error:
        raise (_in_file(error, said.steps) if error.place.startswith("step ") else error) from error
    write(table(moments), said.output)
    if said.page is not None:
        write(page(moments, said.title or f"{said.scheme}, step by step"), said.page)
    last = moments[-1].report
    return 1 if last.ids("reject") or last.ids("waiting") or last.stale() else 0


def draw(said: Namespace) -> int:
    """A picture of a network, as SVG or as DOT, by the ending of the file."""
    network = read_network([said.network])
    report: Report | None = None
    values: dict[int, Value] | None = None
    if said.report is not None:
        report = parse_report(read_text(said.report))
    if said.labels is not None:
        if said.scheme is None:
            raise DeskError("labels are of a scheme", mend="say --scheme E")
        text = read_text(said.labels)
        answer = find_program(said.program).run(["verify", said.scheme], network.text() + text)
        if not answer.reports:
            return _told(answer, network, (said.labels, text))
        report = answer.reports[-1]
        values = _values(said.scheme, parse_labels(text)) if said.level is not None else None
    scene = scene_of(network, report, values, said.level)
    if said.output is not None and said.output.endswith((".dot", ".gv")):
        write(dot_picture(scene), said.output)
    else:
        write(graphviz_svg(dot_picture(scene)) if said.graphviz else svg_picture(scene), said.output)
    return 0


def _values(scheme: str, labels: LabelText) -> dict[int, Value]:
    """What the labels say that can be read."""
    parsed = parse_scheme(scheme)
    values: dict[int, Value] = {}
    for identity, bits in labels.bits.items():
        try:
            values[identity] = parsed.decode(bits, labels.code)
        except DeskError:
            continue
    return values


def completions(said: Namespace) -> int:
    """The completions of a shell."""
    write(completions_text(said.shell, said.parser), None)
    return 0
