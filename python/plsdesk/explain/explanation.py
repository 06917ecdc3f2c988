"""What an explanation is."""

from __future__ import annotations

from dataclasses import dataclass
from difflib import get_close_matches


@dataclass(frozen=True, slots=True)
class Explanation:
    """Where something is, what it usually is, and the command or change that mends it; either end may be empty."""

    place: str
    what: str
    mend: str = ""

    def text(self) -> str:
        """The explanation in one or two lines."""
        front = f"{self.place}: " if self.place else ""
        return f"{front}{self.what}" + (f"\n    {self.mend}" if self.mend else "")


def did_you_mean(word: str, known: tuple[str, ...] | list[str]) -> str:
    """` (did you mean ..?)` with the known word that is nearest to a word, or nothing where none is near."""
    near = get_close_matches(word.lower(), known, n=1, cutoff=0.6)
    return f" (did you mean `{near[0]}`?)" if near else ""
