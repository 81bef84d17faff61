"""Constants of a query in the coordinates of a source: the text that sfq gets in their place, and places in the text that the user wrote.

The numbers in the string of an ST_GeomFromText are those of the source. Each becomes the whole coordinate of the grid that it is, exactly;
one that isn't on the grid is refused, never rounded. All else of the query stays as it is, a text that spells no geometry too: sfq says
what is wrong with it. The library says where the strings are. The rest isn't proved.
"""
from __future__ import annotations

import math
import re
from decimal import Decimal
from fractions import Fraction
from typing import Iterator, NamedTuple, Optional, Sequence

from ..geometry import grids
from ..geometry.faults import MEANINGS
from ..tables import errors, parts
from . import asking, left_out
from .asking import QUERY, Refused, encoded

# White space, signs and what is between them, as the reader of well-known text parts them (06-103r4, 7.2); numbers as it takes them.
WORD = re.compile(r"[ \t\r\n]+|[(),]|[^ \t\r\n(),]+")
NUMBER = re.compile(r"[+-]?(?:[0-9]+\.?[0-9]*|\.[0-9]+)")
# The first line of a fault of a query: its code and byte, and of the text of a geometry that of a W.
FAULT = re.compile(r"sfq: (Q\d+) at (\d+)(?: (W\d+) at (\d+))?")
OF_TEXT = re.compile(r"(?<= )[WV]\d")
# Greater numbers of steps are written as this one: each is past the limit.
PAST = 10**12


class Piece(NamedTuple):
    """A part of a text: what sfq gets, and what the user wrote."""

    made: str
    written: str


def place(pieces: list[Piece], at: int) -> int:
    """Returns the byte of what the user wrote for one of what sfq got: within a number that was replaced, its first."""
    begun = 0
    for made, written in pieces:
        size = len(encoded(made))
        if at < size:
            return begun + (at if made == written else 0)
        at, begun = at - size, begun + len(encoded(written))
    return begun + at


class OffGrid(NamedTuple):
    """A number that isn't on the grid: which piece of its value it is, its text, and the nearest value that is on the grid as a whole."""

    piece: int
    number: str
    nearest: str


class Value:
    """The value of a string in ST_GeomFromText: its pieces, and the first number that isn't on the grid."""

    def __init__(self, text: str, grid: grids.Grid) -> None:
        self.pieces: list[Piece] = []
        self.off: Optional[OffGrid] = None
        nearest, first, count = [], None, 2
        for at, word in enumerate(WORD.findall(text)):
            made = near = word
            if word in "(,":
                count = 0
            elif word[0] not in " \t\r\n)":
                if count < 2 and NUMBER.fullmatch(word):
                    whole, is_on = on(word, (grid.x, grid.y)[count])
                    made, near = str(whole), word if is_on else (grid.x, grid.y)[count].text(whole)
                    first = first or (None if is_on else (at, word))
                count += 1
            self.pieces.append(Piece(made, word))
            nearest.append(near)
        if first:
            self.off = OffGrid(*first, "".join(nearest))


def on(word: str, axis: grids.Axis) -> tuple[int, bool]:
    """Returns the coordinate that is nearest to a number of the source, and whether it is that number. One past the limit is taken as it is."""
    steps = (Fraction(Decimal(word)) - axis.origin) / axis.step
    whole = math.floor(steps + Fraction(1, 2))
    if abs(whole) > grids.MOST:
        return max(-PAST, min(whole, PAST)), True
    return whole, steps == whole


class Constant(NamedTuple):
    """A constant: the byte of its string in what the user wrote, and its value."""

    at: int
    value: Value


class Number(NamedTuple):
    """A number that is compared with a column of decimal numbers: its first character, the one behind it, and what sfq gets."""

    at: int
    end: int
    made: str


class Written:
    """A query as the user wrote it, with its constants in the coordinates of the source, and its numbers as the source has them."""

    def __init__(self, text: str, grid: grids.Grid, numbers: Sequence[Number] = ()) -> None:
        self.text, self.grid = text, grid
        self.pieces: list[Piece] = []
        self.constants: list[Constant] = []
        end, left = 0, sorted(numbers)
        for it in parts.parts(text):
            if left and left[0].at <= it.at:
                number = left.pop(0)
                self.pieces += [Piece(text[end : number.at], text[end : number.at]), Piece(number.made, text[number.at : number.end])]
                end = number.end
            if it.kind != parts.STRING or it.constant != parts.GEOMETRY:
                continue
            value = Value(text[it.at + 1 : it.end - 1].replace("''", "'"), grid)
            self.constants.append(Constant(len(encoded(text[: it.at])), value))
            self.pieces += [Piece(text[end : it.at + 1], text[end : it.at + 1]), *(Piece(*map(doubled, each)) for each in value.pieces)]
            end = it.end - 1
        self.pieces.append(Piece(text[end:], text[end:]))

    @property
    def made(self) -> str:
        """The query that sfq gets."""
        return "".join(it.made for it in self.pieces)

    def need_on_grid(self, name: str) -> None:
        """Refused, by a command of this name, for the first constant that isn't on the grid."""
        for at, value in self.constants:
            if value.off:
                byte = at + 1 + sum(len(encoded(doubled(it.written))) for it in value.pieces[: value.off.piece])
                step, (x, y) = self.grid.spelled
                raise Refused(
                    f"{name}: {value.off.number} isn't on the grid, which has steps of {step} from {x} {y}\n"
                    f"{asking.placed(encoded(self.text), byte)}"
                    f"{name}: the nearest constant that is: ST_GeomFromText('{doubled(value.off.nearest)}')\n", QUERY)

    def refused(self, fault: Refused, name: str) -> Refused:
        """Returns the fault of the query that sfq got with its places in what the user wrote. A fault of anything else stays as it is."""
        found = FAULT.match(fault.text)
        if not found:
            return fault
        at, inner = place(self.pieces, int(found[2])), ""
        constant = next((it for it in self.constants if it.at == at), None)
        if found[3] and constant:
            inner = f" {found[3]} at {place(constant.value.pieces, int(found[4]))}"
        first = f"sfq: {found[1]} at {at}{inner}{fault.text[found.end() :].partition(chr(10))[0]}\n"
        return Refused(first + asking.placed(encoded(self.text), at) + "".join(self.reasons(fault, constant, name)), fault.status)

    def reasons(self, fault: Refused, constant: Optional[Constant], name: str) -> Iterator[str]:
        """Returns the lines below the place of a fault. Of the text of a geometry none that shows what sfq got in place of it."""
        first, *more = fault.text.splitlines(True)
        of_text = OF_TEXT.search(first)
        if constant and of_text:
            yield f"sfq: {errors.MEANINGS['Q8']}: {MEANINGS[of_text[0]]}\n"
            reason = asking.reasons(["".join(it.made for it in constant.value.pieces)]) if of_text[0][0] == "V" else ""
            at = left_out.place(reason.rstrip("\n"), self.grid)
            if at:
                yield f"{name}: the fault is at {' '.join(at)}\n"
            if of_text[0] == "W3":
                yield f"{name}: the grid reaches from {self.corner(-grids.MOST)} to {self.corner(grids.MOST)}\n"
        else:
            yield from (it for it in more if it.startswith("sfq: "))

    def corner(self, whole: int) -> str:
        """Returns the position of the source at a coordinate of both axes."""
        return f"{self.grid.x.text(whole)} {self.grid.y.text(whole)}"


def doubled(text: str) -> str:
    """Returns a text as it is within the quotes of a string."""
    return text.replace("'", "''")
