"""The shapes of the benchmarks that GEOS and JTS have of their own, made anew on the grid: facts about shapes, no code.

A function takes a size, and returns two lists of texts: the first ones, of which each is kept or indexed, and the others, for
which they are asked. Its docstring says which benchmarks it follows. Chance is seeded by the size.

The star of both is the sine star: the distance of its positions from its centre swings as a cosine, once for each arm.
"""

import math
import random
from typing import Callable

from areas import SPAN
from bad_shapes import line, lines, polygon, polygons
from indexes import LIMIT, WINDOWS, around, parcels, small

# A sine star's arms, and how much of its radius they are long.
ARMS, DEPTH = 6, 0.3
# How many squares, lines or stars there are beside a shape, along a side of its envelope, and the positions of each star.
SIDE, POSITIONS = 8, 100
POINTS = 200
# How many waves a border of a cell has, and how high they are in parts of a cell: no more, lest borders meet at its corners.
WAVES, HEIGHT = 4, 0.02
CELL = 2 * SPAN // 5


def sine_star(count: int, x: int = 0, y: int = 0, radius: int = SPAN) -> list[tuple[int, int]]:
    """The positions of a sine star about a centre."""
    found = []
    for k in range(count):
        turn = 2 * math.pi * k / count
        distance = radius * (1 - DEPTH * (1 - math.cos(ARMS * turn)) / 2)
        found.append((x + round(distance * math.cos(turn)), y + round(distance * math.sin(turn))))
    return found


def star_of(size: int) -> str:
    """A large sine star of so many positions, the closing one counted."""
    return polygon(sine_star(size - 1))


def outline(positions: list[tuple[int, int]]) -> str:
    """The text of a closed line."""
    return line(positions + positions[:1])


def square(x: int, y: int, half: int) -> list[tuple[int, int]]:
    """The positions of a square about a centre."""
    return [(x - half, y - half), (x + half, y - half), (x + half, y + half), (x - half, y + half)]


def centres(side: int) -> tuple[list[tuple[int, int]], int]:
    """The centres of the cells of a grid over the large star's envelope, so many along a side, and half the side of a cell."""
    half = SPAN // side
    return [(2 * half * i + half - SPAN, 2 * half * k + half - SPAN) for i in range(side) for k in range(side)], half


def small_stars(side: int = SIDE) -> list[list[tuple[int, int]]]:
    """The positions of a sine star in each cell, as wide as it is."""
    places, half = centres(side)
    return [sine_star(POSITIONS - 1, x, y, half) for x, y in places]


def star_and_squares(size: int) -> tuple[list[str], list[str]]:
    """A star, and a grid of squares that are half as wide as their cells: JTS and GEOS, whether rectangles meet a polygon
    (RectangleIntersects), and prepared polygons."""
    places, half = centres(SIDE)
    return [star_of(size)], [polygon(square(x, y, half // 2)) for x, y in places]


def star_and_outlines(size: int) -> tuple[list[str], list[str]]:
    """A star, and a grid of outlines of small stars: JTS and GEOS, whether lines meet a prepared polygon
    (PreparedPolygonIntersects)."""
    places, half = centres(SIDE)
    return [star_of(size)], [outline(sine_star(POSITIONS - 1, x, y, half // 2)) for x, y in places]


def star_and_stars(size: int) -> tuple[list[str], list[str]]:
    """A star, and a grid of small ones: JTS and GEOS, polygons that overlap (RelateNG), and predicates of topology
    (TopologyPredicate)."""
    return [star_of(size)], list(map(polygon, small_stars()))


def star_and_points(size: int) -> tuple[list[str], list[str]]:
    """A star, and points anywhere in its envelope: JTS and GEOS, points in an indexed area (IndexedPointInArea), and in a
    polygon (RelateNG)."""
    chance = random.Random(size)
    places = [(chance.randint(-SPAN, SPAN), chance.randint(-SPAN, SPAN)) for _ in range(POINTS)]
    return [star_of(size)], [f"POINT({x} {y})" for x, y in places]


def outline_and_outlines(size: int) -> tuple[list[str], list[str]]:
    """The outline of a star, and a grid of those of small ones: JTS and GEOS, lines that overlap (RelateNG)."""
    return [outline(sine_star(size - 1))], list(map(outline, small_stars()))


def border(x: int, y: int, across: int, up: int, count: int) -> list[tuple[int, int]]:
    """The positions of a border from a corner of the grid of cells to the next, without this one: waves of a sine."""
    found = []
    for k in range(count):
        along, aside = round(CELL * k / count), round(CELL * HEIGHT * math.sin(2 * math.pi * WAVES * k / count))
        found.append((x + across * along + up * aside, y + up * along + across * aside))
    return found


def backwards_to(border: list[tuple[int, int]], end: tuple[int, int]) -> list[tuple[int, int]]:
    """A border the other way round: from its end, without its first position."""
    return [end, *border[:0:-1]]


def cell(i: int, k: int, count: int) -> list[tuple[int, int]]:
    """The positions of the cell of this place, of which each border has so many."""
    x, y = i * CELL - SPAN, k * CELL - SPAN
    top = border(x, y + CELL, 1, 0, count)
    left = border(x, y, 0, 1, count)
    return [
        *border(x, y, 1, 0, count), *border(x + CELL, y, 0, 1, count),
        *backwards_to(top, (x + CELL, y + CELL)), *backwards_to(left, (x, y + CELL)),
    ]


def cells(size: int) -> tuple[list[str], list[str]]:
    """A cell of so many positions at most whose borders are waves, and the 24 cells round it, with the same borders: JTS and
    GEOS, polygons side by side (RelateNG), which are countries there."""
    count = (size - 1) // 4
    others = [cell(i, k, count) for i in range(5) for k in range(5) if (i, k) != (2, 2)]
    return [polygon(cell(2, 2, count))], list(map(polygon, others))


def boxes_and_squares(size: int) -> tuple[list[str], list[str]]:
    """One MULTIPOLYGON of a grid of so many squares at most, and squares of another grid: GEOS, prepared geometries of many
    parts."""
    (boxes, half), (places, other) = centres(math.isqrt(size)), centres(4)
    return [polygons([[square(x, y, half // 2)] for x, y in boxes])], [polygon(square(x, y, other // 2)) for x, y in places]


def grid_lines_and_stars(size: int) -> tuple[list[str], list[str]]:
    """One MULTILINESTRING of so many lines across one another, and small stars: JTS, predicates over a grid of lines."""
    steps = [2 * SPAN * k // (size // 2) - SPAN for k in range(size // 2)]
    across = [[(-SPAN, at), (SPAN, at)] for at in steps] + [[(at, -SPAN), (at, SPAN)] for at in steps]
    return [lines(across)], list(map(polygon, small_stars(3)))


def box_of(bounds: tuple[int, int, int, int]) -> str:
    """The text of an envelope, by its bounds: a point, a line or a polygon."""
    low_x, high_x, low_y, high_y = bounds
    if (low_x, low_y) == (high_x, high_y):
        return f"POINT({low_x} {low_y})"
    if low_x == high_x or low_y == high_y:
        return line([(low_x, low_y), (high_x, high_y)])
    return polygon([(low_x, low_y), (high_x, low_y), (high_x, high_y), (low_x, high_y)])


def indexed(kind: Callable[[random.Random, int], list[tuple[int, int, int, int]]]) -> Callable[[int], tuple[list[str], list[str]]]:
    """What makes envelopes of a kind, and windows over them that are as wide as two cells of a grid of them all."""
    def make(size: int) -> tuple[list[str], list[str]]:
        chance = random.Random(size)
        boxes, wide = kind(chance, size), int(4 * LIMIT / math.sqrt(size))
        return list(map(box_of, boxes)), [box_of(around(chance, wide, wide)) for _ in range(WINDOWS)]

    return make


def spots(chance: random.Random, size: int) -> list[tuple[int, int, int, int]]:
    """The bounds of points anywhere."""
    return [around(chance, 0, 0) for _ in range(size)]


# JTS and GEOS, a packed tree (STRtree) of a grid of boxes, and of boxes anywhere; JTS, a tree of points (KdTree).
grid_of_boxes, random_boxes, random_points = map(indexed, (parcels, small, spots))


def one_star(size: int) -> tuple[list[str], list[str]]:
    """A star: JTS and GEOS, reading well-known text."""
    return [star_of(size)], []


def many_points(size: int) -> tuple[list[str], list[str]]:
    """Points anywhere: the same."""
    chance = random.Random(size)
    return [box_of(it) for it in spots(chance, size)], []


def slanted_holes(size: int) -> tuple[list[str], list[str]]:
    """A square with a grid of so many slanted holes at most, each of which reaches into the bounds of its neighbours: JTS, validity
    of polygons with many holes (IsValid)."""
    places, half = centres(math.isqrt(size))
    to, wide, high = (half * it // 8 for it in (12, 4, 7))
    holes = [[(x - to, y - high), (x - to + wide, y - high), (x + to, y + high), (x + to - wide, y + high)] for x, y in places]
    return [polygon(square(0, 0, 2 * SPAN), *holes)], []
