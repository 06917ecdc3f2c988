"""The one error of the desk: a sentence, and the place that it speaks of."""

from __future__ import annotations


def file_fault(error: OSError | UnicodeDecodeError) -> str:
    """Why a file cannot be read or written, in words."""
    if isinstance(error, UnicodeDecodeError):
        return f"this is no text in UTF-8 (byte {error.start + 1} begins no sign)"
    return (error.strerror or str(error)).lower()


class DeskError(Exception):
    """What is wrong with a file or with the words of a call, and where.

    `place` is a line (`line 3`), an edge (`edge Oslo - Bergen`), a node (`node Oslo`) or empty;
    `mend` says what to do about it, or is empty.
    """

    def __init__(self, what: str, place: str = "", mend: str = "") -> None:
        super().__init__(what)
        self.what = what
        self.place = place
        self.mend = mend

    def __str__(self) -> str:
        front = f"{self.place}: " if self.place else ""
        return front + self.what + (f" ({self.mend})" if self.mend else "")
