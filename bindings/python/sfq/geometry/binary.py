"""Well-known binary of geometries (06-103r4, 8.2), and their well-known text on a grid.

The library takes the binary form apart and rounds its positions. What is proved ends there: this file only writes texts. What sfq has
no text for is refused here, by the words that the text would have.
"""
from __future__ import annotations

from itertools import islice
from typing import Any, Iterable, Iterator, NamedTuple, Sequence

from . import grids, library

WORDS = {1: "POINT", 2: "LINESTRING", 3: "POLYGON", 4: "MULTIPOINT", 5: "MULTILINESTRING", 6: "MULTIPOLYGON"}
OTHERS = {
    7: "GEOMETRYCOLLECTION", 8: "CIRCULARSTRING", 9: "COMPOUNDCURVE", 10: "CURVEPOLYGON", 11: "MULTICURVE", 12: "MULTISURFACE",
    13: "CURVE", 14: "SURFACE", 15: "POLYHEDRALSURFACE", 16: "TIN", 17: "TRIANGLE",
}
DIMENSIONS = ("", " Z", " M", " ZM")
# Numbers of types are below the least flag.
FLAGS = 1 << 29


class NoText(ValueError):
    """The form of a geometry has no text in sfq. `form` is the beginning of the text that it would have, as `POINT Z (`."""

    def __init__(self, form: str) -> None:
        super().__init__(form)
        self.form = form


# An x and a y for each position.
Numbers = Sequence[float]


class Shape(NamedTuple):
    """The numbers of a geometry: the word of its type, and for each of its parts the rings or lines, each a list of doubles.

    A part is a polygon, a line or a point; each point and line has one list. An empty geometry has no part.
    """

    word: str
    parts: list[list[Numbers]]


def most_positions(binary: bytes) -> int:
    """Returns a number of positions that a geometry hasn't more of: each takes two doubles."""
    return len(binary) // 16


def form_of(code: int) -> str:
    """Returns the beginning of the text that a geometry of a type would have which sfq hasn't.

    A Z or an M is in the number of the type, as GDAL writes it, or in a flag, as GEOS does.
    """
    kind, dimensions = code % FLAGS % 1000, code % FLAGS // 1000 + (code >> 31) + 2 * (code >> 30 & 1)
    word = WORDS.get(kind) or OTHERS.get(kind, "GEOMETRY")
    return f"{word}{DIMENSIONS[dimensions] if dimensions < 4 else ''} ("


class Taken:
    """A value that was taken apart into rooms, its positions rounded to a grid, by the status of that. NoText where sfq has no text for it.

    `drops_empty` leaves out empty elements.
    """

    __slots__ = ("rooms", "kind", "is_finite")

    kind: int

    def __init__(self, rooms: library.Rooms, status: int, drops_empty: bool) -> None:
        self.rooms, its = rooms, rooms.pieces
        if status == library.REFUSED:
            raise ValueError("this is no well-known binary")
        if status == library.UNKNOWN:
            raise NoText(form_of(its.type))
        self.kind, self.is_finite = its.type, status == library.OK
        if self.kind > 3 and not drops_empty and 0 in self.elements:
            raise NoText(f"{self.word}(EMPTY")

    @property
    def word(self) -> str:
        """The word of the type."""
        return WORDS[self.kind]

    @property
    def elements(self) -> list[int]:
        """How many lines or rings each element has."""
        return self.rooms.elements[:self.rooms.pieces.element_count]

    @property
    def lines(self) -> list[int]:
        """How many positions each line or ring has."""
        return self.rooms.lines[:self.rooms.pieces.line_count]

    def lists(self) -> Iterator[tuple[list[float], list[float], list[int], list[int]]]:
        """Yields the doubles of each line or ring, x and y, and their steps."""
        its, at = self.rooms, 0
        axes = its.xs, its.ys, its.ns, its.ms
        for count in self.lines:
            xs, ys, ns, ms = (of[at:at + count].tolist() for of in axes)
            yield xs, ys, ns, ms
            at += count


def parted(lists: Iterable[Any], elements: Iterable[int]) -> list[list[Any]]:
    """Returns the lists of each element that isn't empty."""
    each = iter(lists)
    return [list(islice(each, it)) for it in elements if it]


def taken(binary: bytes, drops_empty: bool) -> Taken:
    """Takes a value apart into the rooms of this thread, without a grid of its own."""
    rooms = library.of_thread().rooms
    return Taken(rooms, rooms.take_apart(binary, None), drops_empty)


def kind(binary: bytes) -> int:
    """Returns the number of the type of a geometry. NoText where sfq has no text for it."""
    return taken(binary, True).kind


def shape(binary: bytes, drops_empty: bool = False) -> Shape:
    """Returns the numbers of a geometry. NoText where sfq has no text for it; `drops_empty` leaves out empty elements."""
    found = taken(binary, drops_empty)
    lists = ([number for position in zip(xs, ys) for number in position] for xs, ys, _, _ in found.lists())
    return Shape(found.word, parted(lists, found.elements))


def text(binary: bytes, grid: grids.Grid, shift: grids.Shift, drops_empty: bool = False) -> str:
    """Returns the canonical text of a geometry whose numbers are rounded to a grid.

    NoText where sfq has none for it, NotANumber where a number is infinite or none. `drops_empty` leaves out empty elements.
    """
    its = library.of_thread().rooms
    status, pieces = its.take_apart(binary, grid.numbers), its.pieces
    count = pieces.positions
    if status == library.OK and pieces.type == 1 and count:
        n, m = its.ns[0], its.ms[0]
        grid.measure_one(its.xs[0], its.ys[0], n, m, shift)
        return f"POINT({n} {m})"
    found = Taken(its, status, drops_empty)
    if not found.is_finite:
        raise grids.NotANumber(grids.INFINITE)
    word = found.word
    if found.kind == 4 and count:
        xs, ys, ns, ms = (of[:count].tolist() for of in (its.xs, its.ys, its.ns, its.ms))
        unique = dict.fromkeys(zip(ns, ms))
        grid.measure(xs, ys, ns, ms, shift, count - len(unique))
        return f"MULTIPOINT(({'),('.join('%d %d' % it for it in unique)}))"
    lists = [f"({grids.spelled(grid.merged(*it, shift))})" for it in found.lists()]
    return text_of(word, lists, found.elements)


def text_of(word: str, lists: Sequence[str], elements: Iterable[int]) -> str:
    """Returns the text of a geometry of a type, other than a point with a position and points, by the texts of its lines or rings and by how
    many of them each element has."""
    spelled = [",".join(it) for it in parted(lists, elements)]
    if not spelled:
        return f"{word} EMPTY"
    if word == "LINESTRING":
        return f"LINESTRING{spelled[0]}"
    if word == "MULTIPOLYGON":
        return f"MULTIPOLYGON(({'),('.join(spelled)}))"
    return f"{word}({','.join(spelled)})"


def as_multi(spelled: str) -> str:
    """Returns the text of a POINT, LINESTRING or POLYGON as that of the MULTI type with it as the one element."""
    if spelled.startswith("MULTI"):
        return spelled
    word, blank, rest = spelled.partition("(")
    return f"MULTI{spelled}" if not blank else f"MULTI{word}(({rest})"
