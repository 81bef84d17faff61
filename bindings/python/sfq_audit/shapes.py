"""Geometries as lists of positions: read from well-known text, written as such, and taken apart.

None of it is proved, and nothing of it decides anything: what a text means is asked of sfq and of the other engine.
"""
from __future__ import annotations

from typing import NamedTuple

from sfq.geometry import texts

Position = tuple[int, int]
Line = list[Position]
# The parts of an element: of a point or a line itself, of a polygon its rings, the outer one first.
Element = list[Line]
WORDS = tuple(texts.OF_WORD)
POINT, MULTIPOINT, LINESTRING, MULTILINESTRING, POLYGON, MULTIPOLYGON = WORDS
# What a type with one element is in the type with many.
MANY = {POINT: MULTIPOINT, LINESTRING: MULTILINESTRING, POLYGON: MULTIPOLYGON}
ONE = {many: one for one, many in MANY.items()}


class Shape(NamedTuple):
    """A geometry: the word of its type and its elements, none where it is empty.

    All types are nested alike: an element is a list of lines, a line a list of positions. A point is a line of one position.
    """

    word: str
    elements: list[Element]

    @property
    def dimension(self) -> int:
        """The dimension of the type: 0 of points, 1 of lines, 2 of areas."""
        return WORDS.index(self.word) // 2

    @property
    def lines(self) -> list[Line]:
        """The points, lines or rings of all elements."""
        return [line for element in self.elements for line in element]

    @property
    def size(self) -> int:
        """How many positions it has; one that closes a ring counts."""
        return sum(map(len, self.lines))

    @property
    def text(self) -> str:
        """The well-known text, without blanks but between x and y and before EMPTY."""
        return spelled(self.word, self.elements)


def spelled(word: str, elements: list[Element]) -> str:
    """Returns the well-known text of a type and its elements."""
    if not elements:
        return f"{word} EMPTY"
    found = [f"({'),('.join([','.join(['%d %d' % p for p in line]) for line in element])})" for element in elements]
    if word in (POINT, LINESTRING, POLYGON):
        return f"{word}({found[0]})" if word == POLYGON else word + found[0]
    if word == MULTIPOLYGON:
        return f"{word}(({'),('.join(found)}))"
    return f"{word}({','.join(found)})"


def read(text: str) -> Shape:
    """Returns the shape of the well-known text of a geometry that sfq takes."""
    name, parts = texts.coordinates(text)
    word = name.upper()
    if not parts:
        return Shape(word, [])
    if word == POINT:
        x, y = parts
        return Shape(word, [[[(x, y)]]])
    if word == MULTIPOINT:
        return Shape(word, [[[it]] for it in parts])
    if word == LINESTRING:
        return Shape(word, [[list(parts)]])
    if word == MULTILINESTRING:
        return Shape(word, [[list(it)] for it in parts])
    rings = [parts] if word == POLYGON else parts
    return Shape(word, [[list(ring) for ring in it] for it in rings])
