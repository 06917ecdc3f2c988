"""Schemes by their expressions, and what their labels say: labels to values and values to labels.

A value is a dictionary from the names of fields to numbers. `mst` and `pathmax` have besides a list `levels`
of such dictionaries. A label of `and` is `{"first": .., "second": ..}`, one of `or` is
`{"tag": 0 or 1, "rest": ..}`, and one of `map` is `{"own": .., "map": [node, ..]}`, where a node is
`{"id", "pointer" (None or a port), "mark", "num", "ports": [[neighbour, weight], ..]}`.
"""

from __future__ import annotations

from abc import ABC, abstractmethod
from dataclasses import dataclass
from typing import Any

from plsdesk.codes import BitReader, BitWriter
from plsdesk.fault import DeskError

Value = dict[str, Any]

FIELDS: dict[str, tuple[str, ...]] = {
    "tree": ("root", "depth"),
    "forest": ("depth",),
    "bipartite": ("colour",),
    "acyclic": ("depth",),
    "leader": ("root", "depth"),
    "count": ("root", "own", "parent", "depth", "size", "total"),
    "spt": ("root", "depth", "dist"),
    "mst": ("root", "own", "parent", "depth"),
    "pathmax": ("root", "own", "parent", "depth"),
}
LEVELS: dict[str, tuple[str, ...]] = {
    "mst": ("fragment", "weight", "a", "b"),
    "pathmax": ("centroid", "hops", "greatest"),
}
SCHEMES = tuple(FIELDS)


class Scheme(ABC):
    """A scheme: how its labels are read and written, and which of its parts a leaf number names."""

    @abstractmethod
    def read(self, bits: BitReader) -> Value:
        """The value in front of the bits that are left; for `and` and `or` all of them."""

    @abstractmethod
    def write(self, value: Value, bits: BitWriter) -> None:
        """Appends the label that says a value."""

    @abstractmethod
    def leaves(self) -> list["Scheme"]:
        """The schemes that a leaf number counts, from 1 from the left."""

    @abstractmethod
    def part(self, bits: str, code: str, leaf: int) -> str | None:
        """The bits of a label that the leaf of this number reads, or None where it reads none."""

    def decode(self, bits: str, code: str = "gamma") -> Value:
        """The value of a label, read to its last bit."""
        reader = BitReader(bits, code)
        value = self.read(reader)
        if reader.left():
            raise DeskError(f"{reader.left()} bits are left behind the last field", f"bit {reader.place}")
        return value

    def encode(self, value: Value, code: str = "gamma") -> str:
        """The bits of the label that says a value."""
        writer = BitWriter(code)
        try:
            self.write(value, writer)
        except (TypeError, ValueError, LookupError) as error:
            raise DeskError(f"{value} is no value of a label of {self}") from error
        return writer.text()


@dataclass(frozen=True, slots=True)
class Leaf(Scheme):
    """A scheme of the table by its name."""

    name: str

    def __str__(self) -> str:
        return self.name

    def read(self, bits: BitReader) -> Value:
        if self.name == "bipartite":
            return {"colour": int(bits.take(1))}
        value: Value = {field: bits.number() for field in FIELDS[self.name]}
        if self.name in LEVELS:
            count = bits.number()
            if count > bits.left():
                raise DeskError(f"{count} levels are due, and {bits.left()} bits are left", f"bit {bits.place}")
            value["levels"] = [self._level(bits) for _ in range(count)]
        return value

    def _level(self, bits: BitReader) -> Value:
        level = {field: bits.number() for field in LEVELS[self.name]}
        if self.name == "mst" and level["a"] >= level["b"]:
            raise DeskError("on a level of mst, a is less than b", f"bit {bits.place}")
        return level

    def write(self, value: Value, bits: BitWriter) -> None:
        fields = (*FIELDS[self.name], *(("levels",) if self.name in LEVELS else ()))
        _same_fields(self.name, value, fields)
        if self.name == "bipartite":
            bits.bits(str(int(value["colour"])))
            return
        for field in FIELDS[self.name]:
            bits.number(value[field])
        if self.name in LEVELS:
            bits.number(len(value["levels"]))
            for level in value["levels"]:
                _same_fields(f"a level of {self.name}", level, LEVELS[self.name])
                for field in LEVELS[self.name]:
                    bits.number(level[field])

    def leaves(self) -> list[Scheme]:
        return [self]

    def part(self, bits: str, code: str, leaf: int) -> str | None:
        return bits


@dataclass(frozen=True, slots=True)
class MapOf(Scheme):
    """The universal scheme of a property, which is kept as its text."""

    wanted: str

    def __str__(self) -> str:
        return f"map({self.wanted})"

    def read(self, bits: BitReader) -> Value:
        own, count = bits.number(), bits.number()
        if count > bits.left():
            raise DeskError(f"{count} nodes are due, and {bits.left()} bits are left", f"bit {bits.place}")
        return {"own": own, "map": [self._node(bits) for _ in range(count)]}

    @staticmethod
    def _node(bits: BitReader) -> Value:
        identity, pointer, mark, number, degree = (bits.number() for _ in range(5))
        if degree > bits.left():
            raise DeskError(f"{degree} ports are due, and {bits.left()} bits are left", f"bit {bits.place}")
        ports = [[bits.number(), bits.number()] for _ in range(degree)]
        return {"id": identity, "pointer": pointer - 1 if pointer else None, "mark": mark, "num": number, "ports": ports}

    def write(self, value: Value, bits: BitWriter) -> None:
        _same_fields("map", value, ("own", "map"))
        bits.number(value["own"])
        bits.number(len(value["map"]))
        for node in value["map"]:
            _same_fields("a node of a map", node, ("id", "pointer", "mark", "num", "ports"))
            pointer = 0 if node["pointer"] is None else node["pointer"] + 1
            for number in (node["id"], pointer, node["mark"], node["num"], len(node["ports"])):
                bits.number(number)
            for neighbour, weight in node["ports"]:
                bits.number(neighbour)
                bits.number(weight)

    def leaves(self) -> list[Scheme]:
        return [self]

    def part(self, bits: str, code: str, leaf: int) -> str | None:
        return bits


@dataclass(frozen=True, slots=True)
class And(Scheme):
    """Two schemes at once."""

    first: Scheme
    second: Scheme

    def __str__(self) -> str:
        return f"and({self.first},{self.second})"

    def read(self, bits: BitReader) -> Value:
        front = bits.take(bits.number())
        behind = bits.take(bits.left())
        return {"first": self.first.decode(front, bits.code), "second": self.second.decode(behind, bits.code)}

    def write(self, value: Value, bits: BitWriter) -> None:
        _same_fields("and", value, ("first", "second"))
        front = self.first.encode(value["first"], bits.code)
        bits.number(len(front))
        bits.bits(front)
        self.second.write(value["second"], bits)

    def leaves(self) -> list[Scheme]:
        return self.first.leaves() + self.second.leaves()

    def part(self, bits: str, code: str, leaf: int) -> str | None:
        reader = BitReader(bits, code)
        try:
            front = reader.take(reader.number())
        except DeskError:
            return None
        many = len(self.first.leaves())
        if leaf <= many:
            return self.first.part(front, code, leaf)
        return self.second.part(reader.take(reader.left()), code, leaf - many)


@dataclass(frozen=True, slots=True)
class Or(Scheme):
    """At least one of two schemes."""

    first: Scheme
    second: Scheme

    def __str__(self) -> str:
        return f"or({self.first},{self.second})"

    def read(self, bits: BitReader) -> Value:
        tag = int(bits.take(1))
        rest = bits.take(bits.left())
        return {"tag": tag, "rest": (self.second if tag else self.first).decode(rest, bits.code)}

    def write(self, value: Value, bits: BitWriter) -> None:
        _same_fields("or", value, ("tag", "rest"))
        bits.bits(str(int(value["tag"])))
        (self.second if value["tag"] else self.first).write(value["rest"], bits)

    def leaves(self) -> list[Scheme]:
        return self.first.leaves() + self.second.leaves()

    def part(self, bits: str, code: str, leaf: int) -> str | None:
        many = len(self.first.leaves())
        if not bits or (leaf > many) != (bits[0] == "1"):
            return None
        if leaf > many:
            return self.second.part(bits[1:], code, leaf - many)
        return self.first.part(bits[1:], code, leaf)


def _same_fields(what: str, value: Value, fields: tuple[str, ...]) -> None:
    if set(value) != set(fields):
        raise DeskError(f"a label of {what} has the fields {', '.join(fields)}, not {', '.join(map(str, value)) or 'none'}")


def parse_scheme(expression: str) -> Scheme:
    """The scheme of an expression that `pls` takes. What the expression of a `map` says is left to `pls`."""
    name, bracket, inside = expression.partition("(")
    if not bracket and name in FIELDS:
        return Leaf(name)
    if bracket and expression.endswith(")"):
        inside = inside[:-1]
        if name == "map":
            return MapOf(inside)
        parts = operands(inside)
        if name in ("and", "or") and len(parts) == 2:
            first, second = map(parse_scheme, parts)
            return And(first, second) if name == "and" else Or(first, second)
    raise DeskError(f"`{expression}` is no scheme", mend=f"a scheme is {', '.join(SCHEMES)}, map(P), and(E,E) or or(E,E)")


def operands(text: str) -> list[str]:
    """A text cut at the commas that stand in no parentheses."""
    parts, depth = [""], 0
    for sign in text:
        depth += (sign == "(") - (sign == ")")
        if sign == "," and depth == 0:
            parts.append("")
        else:
            parts[-1] += sign
    return parts


def show(value: Value) -> str:
    """A value in a line: `root=5 depth=2`, with levels and parts behind bars."""
    if "first" in value:
        return f"{show(value['first'])} & {show(value['second'])}"
    if "tag" in value:
        return f"tag={value['tag']} {show(value['rest'])}"
    if "map" in value:
        return f"own={value['own']} map of {len(value['map'])} nodes"
    words = [f"{field}={number}" for field, number in value.items() if field != "levels"]
    levels = [" | " + " ".join(f"{field}={number}" for field, number in level.items()) for level in value.get("levels", ())]
    return " ".join(words) + "".join(levels)
