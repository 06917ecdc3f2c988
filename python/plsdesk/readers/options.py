"""What a reader is told besides the text."""

from __future__ import annotations

from dataclasses import dataclass


@dataclass(frozen=True, slots=True)
class ReadOptions:
    """The names of the attributes that say weights and states, and what is done with what `pls` has not.

    `weight` names the attribute of an edge that is its weight; an edge without it weighs 1. `pointer` names
    the attribute of a node that is the name of the node it points at. `unweighted` has all edges weigh 1.
    """

    weight: str = "weight"
    pointer: str = "pointer"
    mark: str = "mark"
    number: str = "num"
    unweighted: bool = False
    lightest: bool = False
    without_loops: bool = False
