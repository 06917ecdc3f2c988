"""The two number codes of labels, and bits read and written by them."""

from __future__ import annotations

from dataclasses import dataclass, field

from plsdesk.fault import DeskError
from plsdesk.limits import MOST_CODED

CODES = ("gamma", "delta")


def number_code(number: int, code: str) -> str:
    """The bits of a number from 0 to 2^63-2, as a text of `0` and `1`."""
    if not 0 <= number <= MOST_CODED:
        raise DeskError(f"{number} has no code: numbers from 0 to {MOST_CODED} have one")
    binary = bin(number + 1)[2:]
    if code == "gamma":
        return "0" * (len(binary) - 1) + binary
    return number_code(len(binary) - 1, "gamma") + binary[1:]


@dataclass(slots=True)
class BitReader:
    """Reads numbers and bits from the front of a text of `0` and `1`."""

    bits: str
    code: str
    place: int = 0

    def left(self) -> int:
        """How many bits are left."""
        return len(self.bits) - self.place

    def take(self, count: int) -> str:
        """The next bits, so many."""
        if count > self.left():
            raise DeskError(f"{count} bits are due, and {self.left()} are left", f"bit {self.place}")
        self.place += count
        return self.bits[self.place - count:self.place]

    def number(self) -> int:
        """The next number."""
        if self.code == "gamma":
            return self._gamma()
        digits = self._gamma()
        if digits > 62:
            raise DeskError("the number is too long", f"bit {self.place}")
        return int("1" + self.take(digits), 2) - 1

    def _gamma(self) -> int:
        one = self.bits.find("1", self.place)
        zeros = one - self.place if one >= 0 else self.left()
        if one < 0 or zeros > 62:
            raise DeskError("a number is due here, and none begins so", f"bit {self.place}")
        self.place = one
        number = int(self.take(zeros + 1), 2) - 1
        return number


@dataclass(slots=True)
class BitWriter:
    """Writes numbers and bits one behind the other."""

    code: str
    pieces: list[str] = field(default_factory=list)

    def number(self, number: int) -> None:
        """Appends the code of a number."""
        self.pieces.append(number_code(number, self.code))

    def bits(self, bits: str) -> None:
        """Appends bits as they are."""
        self.pieces.append(bits)

    def text(self) -> str:
        """All bits so far."""
        return "".join(self.pieces)


def to_hexadecimal(bits: str) -> str:
    """The digits that a label line has for bits: two for each byte begun, `-` for no bits."""
    if not bits:
        return "-"
    width = (len(bits) + 7) // 8
    return f"{int(bits.ljust(8 * width, '0'), 2):0{2 * width}x}"


def from_hexadecimal(length: int, digits: str) -> str:
    """The bits of a label line's length and digits."""
    if length == 0 and digits == "-":
        return ""
    if len(digits) != 2 * ((length + 7) // 8) or set(digits) - set("0123456789abcdef") or length == 0:
        raise DeskError(f"`{digits}` is not how {length} bits are written")
    bits = f"{int(digits, 16):0{4 * len(digits)}b}"
    if "1" in bits[length:]:
        raise DeskError(f"the bits of `{digits}` behind the first {length} are not 0")
    return bits[:length]
