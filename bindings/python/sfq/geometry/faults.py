"""Faults, and the errors that carry them."""
from __future__ import annotations

import pkgutil
import re
from typing import NamedTuple, Optional


def meanings(macro: str) -> dict[str, str]:
    """Returns what each fault means and what to do, by its code, from the lines with a macro, which C reads too."""
    text = (pkgutil.get_data("sfq", "fault_words.h") or b"").decode()
    return {letter + number: words for letter, number, words in re.findall(rf"^{macro}\('(\w)', (\d+), \"(.*)\"\)$", text, re.M)}


MEANINGS = meanings("FAULT")


class Fault(NamedTuple):
    """Why a text isn't that of a valid geometry: its first fault.

    `code` is W1 to W4 for a fault of the text, V1 to V8 for one of the geometry. `first` and `second` are a byte of the text in
    UTF-8, or the numbers of lines, rings or elements, from 0; what a fault doesn't use is 0.
    """

    code: str
    first: int
    second: int

    @property
    def meaning(self) -> str:
        """What the fault means, and what to do."""
        return MEANINGS[self.code]

    @property
    def place(self) -> str:
        """The code with its places, as the program `sfq` prints them: `W1 at 9`, `V4 0 1`."""
        if self.code == "W4":
            return self.code
        if self.code[0] == "W":
            return f"{self.code} at {self.first}"
        both = f" {self.second}" if self.code in ("V4", "V6", "V7", "V8") else ""
        return f"{self.code} {self.first}{both}"

    def __str__(self) -> str:
        return f"{self.place}: {self.meaning}"


class PositionFault(Fault):
    """Why numbers aren't those of a valid geometry. `first` of W2 and W3 is the number of the position, from 0."""

    __slots__ = ()

    @property
    def meaning(self) -> str:
        """What the fault means, and what to do."""
        return MEANINGS[self.code].replace("the number at this byte", "a coordinate of this position")

    @property
    def place(self) -> str:
        """The code with its places: `W3 at position 2`, `V4 0 1`."""
        return f"{self.code} at position {self.first}" if self.code in ("W2", "W3") else super().place


class FaultError(ValueError):
    """A text that isn't that of a valid geometry was asked for a relation.

    `fault` is its first fault, `which` is 'first' or 'second', and `index` its place in a list, or None.
    """

    def __init__(self, fault: Fault, which: str = "first", index: Optional[int] = None) -> None:
        self.fault, self.which, self.index = fault, which, index
        place = "" if index is None else f", pair {index}"
        super().__init__(f"sfq: {which} {fault}{place}")

    def __reduce__(self) -> tuple[type[FaultError], tuple[Fault, str, Optional[int]]]:
        return type(self), (self.fault, self.which, self.index)


class GridError(ValueError):
    """A geometry of another library isn't on the grid: a coordinate isn't whole, or it has a Z."""


class LibraryError(OSError):
    """The C library can't be loaded, or isn't one that this package can use."""
