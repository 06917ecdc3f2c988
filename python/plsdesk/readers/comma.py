"""CSV: tables with a heading. A table with the columns `source` and `target` has an edge a row, one with a
column `node` has a node a row; a weight and the parts of a state are columns by the names of attributes. A
file may have several tables, with an empty row between two of them.
"""

from __future__ import annotations

import csv
import io

from plsdesk.builder import NetworkBuilder
from plsdesk.fault import DeskError
from plsdesk.network import Network
from plsdesk.readers.attributes import add_edge, add_node, state_attributes
from plsdesk.readers.options import ReadOptions


def read(text: str, builder: NetworkBuilder, options: ReadOptions) -> None:
    """Tells a builder all rows of all tables."""
    heading: list[str] | None = None
    rows = csv.reader(io.StringIO(text, newline=""), strict=True)
    try:
        for row in rows:
            place = f"line {rows.line_num}"
            if not any(cell.strip() for cell in row):
                heading = None
            elif heading is None:
                heading = _heading(row, place)
            else:
                _row(dict(zip(heading, row)), len(row), heading, place, builder, options)
    except csv.Error as error:
        raise DeskError(str(error), f"line {rows.line_num}") from error


def _heading(row: list[str], place: str) -> list[str]:
    heading = [cell.strip() for cell in row]
    if "node" in heading or ("source" in heading and "target" in heading):
        return heading
    raise DeskError("a table has the columns `source` and `target`, or a column `node`", place,
                    "write commas for semicolons" if len(row) == 1 and ";" in row[0] else "put such a heading above the rows")


def _row(cells: dict[str, str], width: int, heading: list[str], place: str, builder: NetworkBuilder,
         options: ReadOptions) -> None:
    if width != len(heading):
        raise DeskError(f"the row has {width} cells, and the heading {len(heading)}", place)
    cells = {name: cell.strip() for name, cell in cells.items()}
    if "node" in cells:
        add_node(builder, cells["node"], cells, place, options)
    else:
        filled = {name: cell for name, cell in cells.items() if cell}
        add_edge(builder, (cells["source"], cells["target"]), filled, place, options)


def write(network: Network) -> str:
    """A table of the nodes with their states, and a table of the edges."""
    out = io.StringIO()
    rows = csv.writer(out, lineterminator="\n")
    rows.writerow(["node", "pointer", "mark", "num"])
    for node in network.nodes:
        said = state_attributes(network, node)
        rows.writerow([network.name(node.identity), said.get("pointer", ""), said.get("mark", ""), said.get("num", "")])
    if edges := network.edges():
        out.write("\n")
        rows.writerow(["source", "target", "weight"])
        rows.writerows((network.name(one), network.name(other), weight) for one, other, weight in edges)
    return out.getvalue()
