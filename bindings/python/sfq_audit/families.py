"""Families of hard pairs: each makes pairs of geometries that are known to be difficult, of whole numbers alone.

    for it in pairs(1000, seed=1, names=["slivers"]):
        print(it.first, it.second)

Each family draws on a small grid, where much coincides. Then the pair is turned, stretched and moved by whole numbers, which changes
no matrix, since such a map takes lines to lines and no two points to one; coordinates become as large as the scale says. Some
geometries that are drawn aren't valid; sfq refuses those. The same seed, names and scale give the same pairs.
"""
from __future__ import annotations

import itertools
import random
from typing import Callable, Iterator, NamedTuple, Optional, Sequence, TypeVar

from .shapes import LINESTRING, MULTILINESTRING, MULTIPOINT, MULTIPOLYGON, POINT, POLYGON, WORDS, Element, Line, Position, Shape

# The greatest coordinate of sfq, either way.
MOST = 10_000_000
# The scales that are drawn where none is given: up to how much a pair is stretched.
SCALES = (1, 1, 1, 30, 1000, 100_000)
Two = tuple[Shape, Shape]
Dice = random.Random


class Pair(NamedTuple):
    """A pair: its number, from 0, its family, and two well-known texts."""

    number: int
    family: str
    first: str
    second: str


# ---- what families draw with ----


def below(dice: Dice, count: int) -> int:
    """Returns a number from 0 to below the count. It is quicker than randrange."""
    return int(dice.random() * count)


Item = TypeVar("Item")


def pick(dice: Dice, items: Sequence[Item]) -> Item:
    """Returns one of some items. It is quicker than choice."""
    return items[int(dice.random() * len(items))]


def some(dice: Dice, items: Sequence[Item], count: int) -> list[Item]:
    """Returns so many of some items, each once. It is quicker than sample."""
    left = list(items)
    return [left.pop(int(dice.random() * len(left))) for _ in range(min(count, len(left)))]


def spot(dice: Dice, wide: int) -> Position:
    """Returns a position of a grid of so many columns and rows."""
    return below(dice, wide), below(dice, wide)


def spots(dice: Dice, count: int, wide: int) -> Line:
    return [spot(dice, wide) for _ in range(count)]


def side(a: Position, b: Position, p: Position) -> int:
    """Returns a number above 0 where p is left of the way from a to b, below 0 where right, 0 on the line."""
    return (b[0] - a[0]) * (p[1] - a[1]) - (b[1] - a[1]) * (p[0] - a[0])


def between(a: Position, b: Position) -> Position:
    """Returns the middle of two positions, which has to be whole."""
    return (a[0] + b[0]) // 2, (a[1] + b[1]) // 2


def hull(positions: Line) -> Line:
    """Returns the corners of the convex hull, against the clock; fewer than three where all are on one line."""
    ordered, found = sorted(set(positions)), []
    for way in (ordered, ordered[::-1]):
        chain = way[:1]
        for p in way[1:]:
            while len(chain) > 1 and side(chain[-2], chain[-1], p) <= 0:
                chain.pop()
            chain.append(p)
        found += chain[:-1]
    return found


def is_within(corners: Line, p: Position) -> bool:
    """Whether a position is left of each edge of a ring, which has its corners against the clock: inside, where it is convex."""
    x, y = p
    a, b = corners[-1]
    for c, d in corners:
        if (c - a) * (y - b) <= (d - b) * (x - a):
            return False
        a, b = c, d
    return True


def closed(corners: Line) -> Line:
    """Returns a ring or a closed line of corners."""
    return corners + corners[:1]


def box(left: int, lower: int, right: int, upper: int) -> Line:
    """Returns the ring of a box."""
    return [(left, lower), (right, lower), (right, upper), (left, upper), (left, lower)]


def turned(dice: Dice, ring: Line) -> Line:
    """Returns a ring that begins elsewhere, at times the other way round."""
    at = below(dice, len(ring) - 1)
    found = ring[at:-1] + ring[: at + 1]
    return found if dice.random() < 0.5 else found[::-1]


def ring_of(dice: Dice, known: Line) -> Line:
    """Returns a ring whose corners are known positions: convex, or with one corner drawn in. It has no corners where all are on a line."""
    corners = hull(some(dice, known, 3 + below(dice, 3)))
    if len(corners) < 3:
        return []
    inner = [p for p in known if p not in corners and is_within(corners, p)]
    if inner and dice.random() < 0.6:
        corners.insert(below(dice, len(corners)), pick(dice, inner))
    return turned(dice, closed(corners))


def line_of(dice: Dice, known: Line, most: int = 5) -> Line:
    """Returns a line from one known position to another, at times closed; no two neighbours are equal."""
    found = [pick(dice, known)]
    wanted = 2 + below(dice, most - 1)
    for _ in range(3 * most):
        p = pick(dice, known)
        if p != found[-1]:
            found.append(p)
        if len(found) >= wanted:
            break
    if len(found) > 2 and found[0] != found[-1] and dice.random() < 0.25:
        found.append(found[0])
    return found


def moved(line: Line, x: int, y: int) -> Line:
    return [(a + x, b + y) for a, b in line]


def shape_of(dice: Dice, known: Line, wide: int, kind: int = -1) -> Shape:
    """Returns a shape of a type, or of any, whose positions are known ones; further elements may be moved beside the grid."""
    kind = below(dice, 6) if kind < 0 else kind
    word = WORDS[kind]
    if word == POINT:
        return Shape(word, [[[pick(dice, known)]]])
    if word == MULTIPOINT:
        return Shape(word, [[[pick(dice, known)]] for _ in range(1 + below(dice, 4))])
    if word == LINESTRING:
        return Shape(word, [[line_of(dice, known)]])
    if word == MULTILINESTRING:
        return Shape(word, [[line_of(dice, known, 4)] for _ in range(1 + below(dice, 3))])
    elements = area_of(dice, known, wide)
    if word == MULTIPOLYGON and dice.random() < 0.6:
        more = area_of(dice, known, wide)
        x, y = pick(dice, ((wide, 0), (0, wide), (wide, wide)))
        elements += [[moved(ring, x, y) for ring in it] for it in more]
    return Shape(word, elements)


def area_of(dice: Dice, known: Line, wide: int) -> list[Element]:
    """Returns an area as a list of one element, at times with a hole; a small triangle where the known positions have no ring."""
    ring = ring_of(dice, known)
    if not ring:
        x, y = known[0]
        u, v = (n - 1 if n > 0 else n + 1 for n in (x, y))
        ring = closed([(x, y), (u, y), (x, v)])
    if dice.random() < 0.25:
        return [[box(-1, -1, wide, wide), ring]]
    return [[ring]]


# ---- the families ----


def shared_corners(dice: Dice) -> Two:
    """Shapes whose corners are of the same few positions."""
    wide = 3 + below(dice, 3)
    known = spots(dice, 4 + below(dice, 3), wide)
    return shape_of(dice, known, wide), shape_of(dice, known, wide)


def on_one_line(dice: Dice) -> tuple[Line, Position]:
    """Returns positions of one line, in order, and the step between them."""
    step = pick(dice, ((1, 0), (0, 1), (1, 1), (2, 1), (-1, 2), (3, -2), (5, 3)))
    at, found = spot(dice, 4), []
    for _ in range(6):
        found.append(at)
        times = 1 + below(dice, 2)
        at = at[0] + times * step[0], at[1] + times * step[1]
    return found, step


def overlapping_edges(dice: Dice) -> Two:
    """Edges of both shapes are on one line and overlap in part."""
    along, (x, y) = on_one_line(dice)

    def one() -> Shape:
        first, second = sorted(some(dice, range(6), 2))
        a, b = along[first], along[second]
        apex = pick(dice, along)
        far = 1 + below(dice, 3)
        apex = (apex[0] - far * y, apex[1] + far * x) if dice.random() < 0.5 else (apex[0] + far * y, apex[1] - far * x)
        kind = below(dice, 5)
        if kind == 0:
            return Shape(LINESTRING, [[[a, b]]])
        if kind == 1:
            return Shape(LINESTRING, [[[apex, a, b]]])
        if kind == 2:
            return Shape(MULTILINESTRING, [[[a, b]], [[pick(dice, along), apex]], [some(dice, along, 2)]])
        inner = along[first + 1 : second] if dice.random() < 0.4 else []
        ring = turned(dice, [a, *inner, b, apex, a])
        return Shape(POLYGON if kind == 3 else MULTIPOLYGON, [[ring]])

    return one(), one()


def crossings_off_grid(dice: Dice) -> Two:
    """Edges cross in points with fractions, and three or more in the same one."""
    wide = 3 + below(dice, 8)
    a, d = spot(dice, wide), (1 + below(dice, wide), 1 + below(dice, wide))
    parts = 2 + below(dice, 6)
    lines = [[a, (a[0] + d[0], a[1] + d[1])]]
    for _ in range(2 + below(dice, 2)):
        r = spot(dice, wide)
        s = r[0] + parts * (a[0] - r[0]) + d[0], r[1] + parts * (a[1] - r[1]) + d[1]
        if r != s:
            lines.append([r, s] if dice.random() < 0.5 else [s, r])
    lines = some(dice, lines, len(lines))
    many = 1 + below(dice, max(len(lines) - 1, 1))
    first = Shape(MULTILINESTRING, [[it] for it in lines[:many]])
    rest = lines[many:] or lines[:1]
    if dice.random() < 0.4:
        corners = hull([*rest[0], spot(dice, 2 * wide)])
        if len(corners) == 3:
            return first, Shape(POLYGON, [[closed(corners)]])
    return first, Shape(MULTILINESTRING, [[it] for it in rest])


def lines_through_corners(dice: Dice) -> Two:
    """A line passes through its own corners and along itself; the other shape is at these corners."""
    wide = 3
    known = spots(dice, 4, wide)
    line = [pick(dice, known) for _ in range(4 + below(dice, 5))]
    line = [p for at, p in enumerate(line) if at == 0 or p != line[at - 1]]
    if len(line) < 2:
        line = [known[0], (known[0][0] + 1, known[0][1])]
    first = Shape(LINESTRING, [[line]])
    other = shape_of(dice, known, wide)
    return (first, other) if dice.random() < 0.5 else (other, first)


def closed_lines(dice: Dice) -> Two:
    """Closed lines, some through one position several times, and ends that meet: by the rule of odd ends."""
    wide = 4
    known = spots(dice, 5, wide)

    def loop() -> Line:
        middle = pick(dice, known)
        found = [middle]
        for _ in range(1 + below(dice, 2)):
            found += [*(pick(dice, known) for _ in range(2)), middle]
        return [p for at, p in enumerate(found) if at == 0 or p != found[at - 1]]

    def one() -> Shape:
        found = [it for it in (loop() for _ in range(1 + below(dice, 3))) if len(it) > 1]
        if found and dice.random() < 0.4:
            found.append([found[0][0], (found[0][0][0] + 1 + below(dice, 3), found[0][0][1] + below(dice, 3))])
        if len(found) == 1:
            return Shape(LINESTRING, [found])
        return Shape(MULTILINESTRING, [[it] for it in found])

    return one(), one() if dice.random() < 0.6 else shape_of(dice, known, wide)


def ends_on_edges(dice: Dice) -> Two:
    """Ends of lines, points and corners lie within edges of the other shape."""
    wide = 4
    base = shape_of(dice, [(2 * x, 2 * y) for x, y in spots(dice, 5, wide)], 2 * wide, 2 + below(dice, 4))
    edges = [edge for line in base.lines for edge in zip(line, line[1:])]
    if not edges:
        return base, Shape(POINT, [[[spot(dice, wide)]]])
    inner = [between(*pick(dice, edges)) for _ in range(3)]
    return base, shape_of(dice, inner + [(2 * x, 2 * y) for x, y in spots(dice, 2, wide)], 2 * wide)


def filled_holes(dice: Dice) -> Two:
    """A shape fills the holes of the other, exactly, nearly, or along a part of them."""
    size = 6 + 2 * below(dice, 3)
    hole = ring_of(dice, [(1 + x, 1 + y) for x, y in spots(dice, 5, size - 1)])
    if not hole:
        hole = box(2, 2, size - 2, size - 2)
    holes = [hole]
    x = size + 1
    if dice.random() < 0.3:
        holes.append(box(x, 1, x + 2, size - 1))
    outer = box(0, 0, size + 4, size)
    first = Shape(POLYGON, [[outer, *(turned(dice, it) for it in holes)]])
    if dice.random() < 0.3:
        first = Shape(MULTIPOLYGON, first.elements + [[box(size + 6, 0, size + 8, 2)]])
    kind = below(dice, 5)
    if kind == 0:
        return first, Shape(POLYGON, [[turned(dice, hole)]])
    if kind == 1:
        return first, Shape(MULTIPOLYGON, [[turned(dice, it)] for it in holes])
    if kind == 2:
        return first, Shape(LINESTRING, [[turned(dice, hole)]])
    if kind == 3:
        known = hole[:-1]
        return first, shape_of(dice, known + [between((2 * known[0][0], 2 * known[0][1]), (0, 0))], size)
    ring = ring_of(dice, hole[:-1] + [spot(dice, size)])
    return (Shape(POLYGON, [[ring]]) if ring else Shape(POLYGON, [[hole]])), first


def empty_shapes(dice: Dice) -> Two:
    """One shape is empty, or both are, of each type."""
    known = spots(dice, 4, 4)
    empty, other = Shape(WORDS[below(dice, 6)], []), shape_of(dice, known, 4)
    if dice.random() < 0.2:
        other = Shape(WORDS[below(dice, 6)], [])
    return (empty, other) if dice.random() < 0.5 else (other, empty)


def at_limit(dice: Dice) -> Two:
    """Corners at the limit of coordinates, 10,000,000 either way, or one short of it."""
    ends = (-MOST, MOST, -MOST, MOST, 1 - MOST, MOST - 1, 0, 1)
    known = [(pick(dice, ends), pick(dice, ends)) for _ in range(5)]
    return shape_of(dice, known, 0, below(dice, 5)), shape_of(dice, known, 0, below(dice, 5))


def touching_elements(dice: Dice) -> Two:
    """Elements that touch one another: lines of one shape by their ends, areas of both shapes by corners and edges."""
    wide = 3
    boxes = [box(2 * x, 2 * y, 2 * x + 2, 2 * y + 2) for x in range(wide) for y in range(wide) if (x + y) % 2 == 0]
    others = [box(2 * x, 2 * y, 2 * x + 2, 2 * y + 2) for x in range(wide) for y in range(wide) if (x + y) % 2]
    if dice.random() < 0.5:
        known = [p for it in boxes[:2] for p in it[:-1]]
        first = Shape(MULTILINESTRING, [[line_of(dice, known, 3)] for _ in range(2 + below(dice, 3))])
    else:
        first = Shape(MULTIPOLYGON, [[turned(dice, it)] for it in (boxes[0], boxes[1], boxes[3])[:: pick(dice, (1, 2))]])
        if dice.random() < 0.5:
            first = Shape(MULTIPOLYGON, [[turned(dice, it)] for it in some(dice, boxes[:1] + boxes[4:] + others[1:2], 2)])
    kind = below(dice, 4)
    if kind == 0:
        return first, Shape(POLYGON, [[turned(dice, pick(dice, others))]])
    if kind == 1:
        return first, Shape(MULTIPOLYGON, [[turned(dice, others[0])], [turned(dice, others[3])]])
    known = [p for it in others[:2] for p in it[:-1]]
    return first, shape_of(dice, known, 2 * wide, 2 + kind - 2)


def slivers(dice: Dice) -> Two:
    """Thin triangles and long edges, with positions as near to them as whole numbers can be."""
    x, y = 2 + below(dice, 1000), 1 + below(dice, 1000)
    # The cross product of (x, y) and (u, v) is 1 or -1: u and v come from the steps of Euclid's division.
    u, v = bezout(x, y)
    times = 1 + below(dice, 3)
    a, b = (0, 0), (x * times, y * times)
    near = [(u, v), (u + x, v + y), (x - u, y - v), (-u, -v), (x, y)]
    known = [a, b, *near]

    def one() -> Shape:
        if dice.random() < 0.5:
            corners = hull([a, b, pick(dice, near)])
            if len(corners) == 3:
                return Shape(POLYGON, [[turned(dice, closed(corners))]])
        return shape_of(dice, known, 0, below(dice, 5))

    return one(), one()


def bezout(x: int, y: int) -> Position:
    """Returns u and v of which x * v - y * u is the greatest common divisor of x and y."""
    a, b, u, next_u, v, next_v = x, y, 0, -1, 1, 0
    while b:
        times, rest = divmod(a, b)
        a, b = b, rest
        u, next_u, v, next_v = next_u, u - times * next_u, next_v, v - times * next_v
    return u, v


# ---- shapes of a small grid, as benches draw them ----

GRID = 7
# How far geometries of many edges reach, and how often they are drawn.
REACH = 30
MANY = 0.2


def draw_line(dice: Dice) -> Line:
    """Returns the positions of a line, at times a closed one, or of many edges."""
    if dice.random() < MANY:
        return draw_long_line(dice)
    positions = spots(dice, 2 + below(dice, 4), GRID + 1)
    return closed(positions) if dice.random() < 0.3 else positions


def draw_ring(dice: Dice, low: int = 0, high: int = GRID) -> Line:
    """Returns the positions of a ring: a box or three to five corners, which may cross."""
    if dice.random() < 0.4:
        (left, right), (lower, upper) = (sorted(some(dice, range(low, high + 1), 2)) for _ in range(2))
        return box(left, lower, right, upper)
    return closed(moved(spots(dice, 3 + below(dice, 3), high - low + 1), low, low))


def draw_long_line(dice: Dice) -> Line:
    """Returns the positions of a line of many edges, at times of short ones, at times a closed one."""
    step = pick(dice, (1, 3, REACH))
    x, y = spot(dice, GRID + 1)
    positions = [(x, y)]
    for _ in range(20 + below(dice, 21)):
        x, y = (min(max(at + below(dice, 2 * step + 1) - step, 0), REACH) for at in (x, y))
        positions.append((x, y))
    return closed(positions) if dice.random() < 0.3 else positions


def draw_long_ring(dice: Dice, low: int = 0, high: int = GRID) -> Line:
    """Returns a ring of many edges, from left to right and back; it begins at any of its positions."""
    middle = low + 1 + below(dice, high - low)
    right = 12 + below(dice, REACH - 11)
    lower = [(x, low + below(dice, middle - low)) for x in range(right)]
    upper = [(x, middle + below(dice, high - middle + 1)) for x in reversed(range(right))]
    return turned(dice, closed(lower + upper))


def draw_rings(dice: Dice, low: int = 0, high: int = GRID) -> Element:
    """Returns the rings of a polygon, at times with a hole, or one of many edges."""
    if dice.random() < MANY:
        return [draw_long_ring(dice, low, high)]
    if dice.random() < 0.3 and high - low >= 4:
        return [box(low, low, high, high), draw_ring(dice, low + 1, high - 1)]
    return [draw_ring(dice, low, high)]


def draw(dice: Dice, word: str) -> Shape:
    """Returns a random geometry of a type on a small grid, which may have a fault."""
    if dice.random() < 0.01:
        return Shape(word, [])
    if word == POINT:
        return Shape(word, [[[spot(dice, GRID + 1)]]])
    if word == MULTIPOINT:
        return Shape(word, [[[it]] for it in spots(dice, 1 + below(dice, 4), GRID + 1)])
    if word == LINESTRING:
        return Shape(word, [[draw_line(dice)]])
    if word == MULTILINESTRING:
        return Shape(word, [[draw_line(dice)] for _ in range(1 + below(dice, 3))])
    if word == POLYGON:
        return Shape(word, [draw_rings(dice)])
    return Shape(word, [draw_rings(dice, 0, 3), draw_rings(dice, 4, GRID)][: 1 + below(dice, 2)])


def any_shapes(dice: Dice) -> Two:
    """Shapes of a small grid, of any two types, some of many edges."""
    return draw(dice, WORDS[below(dice, 6)]), draw(dice, WORDS[below(dice, 6)])


# ---- families that are drawn by name alone ----

# Into how many parts of whole steps an edge of their lines can be cut.
STEPS = (1, 2, 2, 3)


def crossing_lines(dice: Dice) -> tuple[list[Line], int]:
    """Returns lines that cross themselves or one another, and into how many whole steps each of their edges can be cut."""
    wide, steps = 3 + below(dice, 4), pick(dice, STEPS)
    known = [(steps * x, steps * y) for x, y in spots(dice, 5, wide)]
    found = [line_of(dice, known, 5)] if dice.random() < 0.6 else [line_of(dice, known, 2) for _ in range(2 + below(dice, 2))]
    return [it for it in found if len(it) > 1] or [[(0, 0), (steps, 0)]], steps


def cut_edges(dice: Dice, line: Line, steps: int, share: float) -> Line:
    """Returns a line with a share of the positions at whole steps along its edges as vertices."""
    found = line[:1]
    for (x, y), (u, v) in zip(line, line[1:]):
        found += [(x + at * (u - x) // steps, y + at * (v - y) // steps) for at in range(1, steps) if dice.random() < share]
        found.append((u, v))
    return found


def piece_of(dice: Dice, line: Line) -> Line:
    """Returns a part of a line from one of its vertices to a later one, at times the other way round."""
    first, last = sorted(some(dice, range(len(line)), 2))
    found = line[first : last + 1]
    return found if dice.random() < 0.5 else found[::-1]


def of_lines(lines: list[Line]) -> Shape:
    """Returns the shape of some lines."""
    return Shape(LINESTRING, [lines]) if len(lines) == 1 else Shape(MULTILINESTRING, [[it] for it in lines])


def more_vertices(dice: Dice) -> Two:
    """Lines that cross themselves, and the same with more vertices on their edges, whole or cut into several."""
    lines, steps = crossing_lines(dice)
    found: list[Line] = []
    for it in lines:
        it = cut_edges(dice, it, steps, 0.6)
        at = 1 + below(dice, len(it) - 2) if len(it) > 2 and dice.random() < 0.4 else 0
        found += [it[: at + 1], it[at:]] if at else [it]
    return of_lines(lines), of_lines([it[::-1] if dice.random() < 0.3 else it for it in some(dice, found, len(found))])


def parts_of_lines(dice: Dice) -> Two:
    """Lines that cross themselves, and parts of them, whose ends lie within their edges."""
    lines, steps = crossing_lines(dice)
    cut = [cut_edges(dice, it, steps, 1) for it in lines]
    found = [piece_of(dice, pick(dice, cut)) for _ in range(1 + below(dice, 2))]
    if dice.random() < 0.2:
        found.append(spots(dice, 2, 4))
    both = of_lines(lines), of_lines([it for it in found if it[0] != it[-1] or len(it) > 2] or lines)
    return both if dice.random() < 0.5 else both[::-1]


def lines_along_rings(dice: Dice) -> Two:
    """An area, and a line that goes along its ring and crosses itself or the ring on the way; the ring may have more vertices."""
    wide, steps = 3 + below(dice, 4), pick(dice, STEPS)
    known = [(steps * x, steps * y) for x, y in spots(dice, 5, wide)]
    ring = ring_of(dice, known) or closed([(0, 0), (steps, 0), (0, steps)])
    along = piece_of(dice, cut_edges(dice, ring, steps, 0.5))
    before, after = ([pick(dice, known) for _ in range(below(dice, 3))] for _ in range(2))
    line = [*before, *along, *after]
    line = [p for at, p in enumerate(line) if not at or p != line[at - 1]]
    area = Shape(POLYGON, [[turned(dice, cut_edges(dice, ring, steps, 0.3))]])
    if dice.random() < 0.25:
        more = [(x + steps * wide, y) for x, y in ring]
        area = Shape(MULTIPOLYGON, [*area.elements, [turned(dice, more)]])
    both = area, of_lines([line] if dice.random() < 0.7 else [line, line_of(dice, known, 3)])
    return both if dice.random() < 0.5 else both[::-1]


def areas_along_areas(dice: Dice) -> Two:
    """Two areas whose edges lie on one another in part, with more vertices on them, and cross elsewhere."""
    wide, steps = 3 + below(dice, 4), pick(dice, STEPS)
    known = [(steps * x, steps * y) for x, y in spots(dice, 6, wide)]
    ring = ring_of(dice, known) or closed([(0, 0), (steps, 0), (0, steps)])
    vertices = cut_edges(dice, ring, steps, 1)
    other = ring_of(dice, [*some(dice, vertices, 4), pick(dice, known)]) or ring
    first, second = (Shape(POLYGON, [[turned(dice, cut_edges(dice, it, steps, 0.3))]]) for it in (ring, other))
    if dice.random() < 0.4:
        more = [(x + steps * wide, y) for x, y in other]
        second = Shape(MULTIPOLYGON, [*second.elements, [turned(dice, more)]])
    return first, second


def some_ends(dice: Dice) -> Two:
    """Lines that meet at ends, and points or lines at some ends of these, but not at all: boundaries less points."""
    wide = 2 + below(dice, 2)
    known = spots(dice, 4, wide)
    first = of_lines([it for it in (line_of(dice, known, 3) for _ in range(1 + below(dice, 3))) if len(it) > 1] or [[(0, 0), (1, 1)]])
    ends = [p for it in first.lines for p in (it[0], it[-1])]
    if dice.random() < 0.5:
        second = Shape(MULTIPOINT, [[[p]] for p in some(dice, ends, 1 + below(dice, 2))])
    else:
        second = of_lines([it for it in (line_of(dice, [*ends, spot(dice, wide)], 3) for _ in range(1 + below(dice, 2))) if len(it) > 1] or first.lines)
    return (first, second) if dice.random() < 0.5 else (second, first)


# ---- pairs ----

FAMILIES: dict[str, Callable[[Dice], Two]] = {
    "any": any_shapes,
    "corners": shared_corners,
    "overlaps": overlapping_edges,
    "crossings": crossings_off_grid,
    "through": lines_through_corners,
    "closed": closed_lines,
    "ends": ends_on_edges,
    "holes": filled_holes,
    "empty": empty_shapes,
    "limit": at_limit,
    "touching": touching_elements,
    "slivers": slivers,
}
# Those that are drawn only where they are named, so that a number of pairs of all families stays what it was.
NAMED_ALONE: dict[str, Callable[[Dice], Two]] = {
    "vertices": more_vertices,
    "parts": parts_of_lines,
    "rings": lines_along_rings,
    "borders": areas_along_areas,
    "boundaries": some_ends,
}
ALL_FAMILIES = {**FAMILIES, **NAMED_ALONE}


def meaning(name: str) -> str:
    """Returns what the pairs of a family are."""
    return (ALL_FAMILIES[name].__doc__ or "").strip()


def stretched(dice: Dice, two: Two, scale: int) -> Two:
    """Returns the pair turned, stretched and moved by whole numbers up to the scale; as it is where it would pass the limit."""
    numbers = [n for it in two for element in it.elements for line in element for p in line for n in p]
    far = max(max(numbers), -min(numbers)) if numbers else 0
    a, b = 1 + below(dice, scale), below(dice, scale)
    if dice.random() < 0.3:
        b = 0
    most = MOST - far * (a + b)
    if most < 0:
        return two
    room = min(most, scale)
    x, y = below(dice, 2 * room + 1) - room, below(dice, 2 * room + 1) - room

    def placed(it: Shape) -> Shape:
        return Shape(it.word, [[[(a * p - b * q + x, b * p + a * q + y) for p, q in line] for line in element] for element in it.elements])

    return placed(two[0]), placed(two[1])


def drawn(name: str, seed: object, scale: Optional[int] = None) -> Iterator[tuple[str, str]]:
    """Yields pairs of well-known texts of a family without end, the same for a name, a seed and a scale."""
    dice, family = random.Random(f"{seed} {name}"), ALL_FAMILIES[name]
    while True:
        two, most = family(dice), pick(dice, SCALES) if scale is None else scale
        if most > 1:
            two = stretched(dice, two, most)
        yield two[0].text, two[1].text


def pairs(count: int, seed: object, names: Sequence[str] = (), scale: Optional[int] = None) -> Iterator[Pair]:
    """Yields so many pairs, of the named families in turn, or of all that aren't drawn by name alone. KeyError for an unknown name."""
    known = list(names or FAMILIES)
    makers = [drawn(name, seed, scale) for name in known]
    for number, (name, maker) in zip(range(count), itertools.cycle(zip(known, makers))):
        yield Pair(number, name, *next(maker))
