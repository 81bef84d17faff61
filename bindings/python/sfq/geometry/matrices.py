"""The exact DE-9IM matrix of two geometries in whole numbers, of any size (06-103r4, 6.1.15.2). None of it is proved.

The points that the edges of both share cut lines and borders into pieces. A piece is in one part of the other geometry, and so is each
sector between pieces around such a point. A line or ring that shares no point with the edges of the other is one piece.
"""
from __future__ import annotations

import re

from . import exact
from .exact import Figure, Nodes

INTERIOR, BOUNDARY, EXTERIOR = range(3)
# The predicates that a relation decides, by its name.
HOLD = {
    exact.DISJOINT: ("ST_Disjoint",), exact.TOUCHES: ("ST_Intersects", "ST_Touches"),
    exact.EQUALS: ("ST_Intersects", "ST_Equals", "ST_Within", "ST_Contains"),
    exact.WITHIN: ("ST_Intersects", "ST_Within"), exact.CONTAINS: ("ST_Intersects", "ST_Contains"),
    exact.CROSSES: ("ST_Intersects", "ST_Crosses"), exact.OVERLAPS: ("ST_Intersects", "ST_Overlaps"),
}
PATTERN = re.compile(r"[TtFf*012]{9}")


class Cells:
    """The cells of a matrix: the greatest dimension that is found in each, from the row of the interior on."""

    def __init__(self) -> None:
        self.rows = [["F"] * 3, ["F"] * 3, ["F", "F", "2"]]

    def add(self, row: int, column: int, dimension: int) -> None:
        """Takes a point set of this dimension that a part of the first geometry shares with one of the second."""
        # The letter F is behind the digits.
        known = self.rows[row][column]
        self.rows[row][column] = str(dimension) if known == "F" else max(known, str(dimension))

    def text(self, is_turned: bool) -> str:
        """Returns the nine characters, those of the second geometry and the first if both are exchanged."""
        rows = zip(*self.rows) if is_turned else self.rows
        return "".join(it for row in rows for it in row)


def location(figure: Figure, p: exact.Point) -> int:
    """Returns which part of a geometry has a point."""
    if not figure.dimension:
        return INTERIOR if p in figure.points else EXTERIOR
    if figure.has_on_edge(p):
        return BOUNDARY if figure.dimension == 2 or figure.is_end(p) else INTERIOR
    return INTERIOR if figure.dimension == 2 and figure.is_inside(p) else EXTERIOR


def side(is_in: bool) -> int:
    """Returns the part of an area of points that aren't on its border."""
    return INTERIOR if is_in else EXTERIOR


def matrix(one: Figure, other: Figure) -> str:
    """Returns the matrix of two valid geometries."""
    is_turned = one.dimension > other.dimension
    first, second = (other, one) if is_turned else (one, other)
    cells = Cells()
    if not first.dimension:
        of_points(cells, first, second)
    elif second.dimension == 1:
        of_lines(cells, first, second)
    else:
        (of_areas if first.dimension == 2 else of_line_and_area)(cells, first, second)
    return cells.text(is_turned)


def of_points(cells: Cells, points: Figure, other: Figure) -> None:
    """Fills the matrix of points and another geometry."""
    for p in points.points:
        cells.add(INTERIOR, location(other, p), 0)
    if not other.dimension:
        if other.points - points.points:
            cells.add(EXTERIOR, INTERIOR, 0)
    elif not other.is_empty:
        cells.add(EXTERIOR, INTERIOR, other.dimension)
        if other.dimension == 2:
            cells.add(EXTERIOR, BOUNDARY, 1)
        elif any(p not in points.points for p in other.odd_ends):
            cells.add(EXTERIOR, BOUNDARY, 0)


def of_areas(cells: Cells, one: Figure, other: Figure) -> None:
    """Fills the matrix of two areas."""
    nodes = Nodes(one, other, stops=False)
    for found in nodes.rays.values():
        cells.add(BOUNDARY, BOUNDARY, 0)
        groups = exact.around(found)
        for at, group in enumerate(groups):
            # The sector behind the group has what the rays have on both sides, of a geometry that has no ray there.
            first, second = side(exact.side_of(groups, at, True)), side(exact.side_of(groups, at, False))
            cells.add(first, second, 2)
            owners = {it.is_first for it in group}
            cells.add(BOUNDARY if True in owners else first, BOUNDARY if False in owners else second, 1)
    for p in nodes.uncut(one, 0):
        second = side(other.is_inside(p))
        for first, dimension in ((INTERIOR, 2), (BOUNDARY, 1), (EXTERIOR, 2)):
            cells.add(first, second, dimension)
    for p in nodes.uncut(other, 1):
        first = side(one.is_inside(p))
        for second, dimension in ((INTERIOR, 2), (BOUNDARY, 1), (EXTERIOR, 2)):
            cells.add(first, second, dimension)


def of_line_and_area(cells: Cells, line: Figure, area: Figure) -> None:
    """Fills the matrix of lines and an area."""
    nodes = Nodes(line, area, stops=False)
    for p, found in nodes.rays.items():
        cells.add(BOUNDARY if line.is_end(p) else INTERIOR, BOUNDARY, 0)
        groups = exact.around(found)
        for at, group in enumerate(groups):
            owners = {it.is_first for it in group}
            second = BOUNDARY if False in owners else side(exact.side_of(groups, at, False))
            cells.add(INTERIOR if True in owners else EXTERIOR, second, 1)
    for p in nodes.uncut(line, 0):
        cells.add(INTERIOR, side(area.is_inside(p)), 1)
    if any(nodes.uncut(area, 1)):
        cells.add(EXTERIOR, BOUNDARY, 1)
    if not area.is_empty:
        cells.add(EXTERIOR, INTERIOR, 2)
    for p in line.odd_ends:
        if p not in nodes.rays:
            cells.add(BOUNDARY, side(area.is_inside(p)), 0)


def of_lines(cells: Cells, one: Figure, other: Figure) -> None:
    """Fills the matrix of lines."""
    nodes = Nodes(one, other, stops=False)
    for p, found in nodes.rays.items():
        cells.add(BOUNDARY if one.is_end(p) else INTERIOR, BOUNDARY if other.is_end(p) else INTERIOR, 0)
        for group in exact.around(found):
            owners = {it.is_first for it in group}
            cells.add(INTERIOR if True in owners else EXTERIOR, INTERIOR if False in owners else EXTERIOR, 1)
    if any(nodes.uncut(one, 0)):
        cells.add(INTERIOR, EXTERIOR, 1)
    if any(nodes.uncut(other, 1)):
        cells.add(EXTERIOR, INTERIOR, 1)
    if any(p not in nodes.rays for p in one.odd_ends):
        cells.add(BOUNDARY, EXTERIOR, 0)
    if any(p not in nodes.rays for p in other.odd_ends):
        cells.add(EXTERIOR, BOUNDARY, 0)


def holds(name: str, found: str, dimensions: tuple[int, int]) -> bool:
    """Whether a predicate holds of geometries of these dimensions with this matrix (06-103r4, 6.1.15.3)."""
    return name in HOLD[exact.named(found, *dimensions)]


def matches(found: str, pattern: str) -> bool:
    """Whether a matrix matches a pattern of ST_Relate (06-103r4, 6.1.15.2)."""
    return all(it == "*" or (it == "T" and cell != "F") or it == cell for it, cell in zip(pattern.upper(), found))


def forces_meeting(pattern: str) -> bool:
    """Whether two geometries whose matrix matches a pattern share a point."""
    return any(pattern[it] in "Tt012" for it in (0, 1, 3, 4))
