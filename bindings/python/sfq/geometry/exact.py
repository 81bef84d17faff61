"""The exact relation of two geometries whose coordinates are doubles, in whole numbers: none of it is proved.

A double is a whole number over a power of two. So two geometries become whole numbers once both are multiplied by the greatest such
power, and nothing below is rounded. A relation is one of seven names, and exactly one holds of two geometries (06-103r4, 6.1.15.3):
they are disjoint or touch, or their interiors meet, and they are equal, one is within the other, they cross or overlap.

The borders of two areas cut one another into chains, which are whole rings or end in points that both borders share. Around such a
point both borders divide the plane into sectors, and each sector is within an area or outside it. A ring that shares no point with the
other border is inside the other area or outside. Whatever part of the plane is in one area, or in both, has one of these on its border.
"""
from __future__ import annotations

import functools
from collections import Counter
from fractions import Fraction
from typing import Any, Iterator, NamedTuple, Optional, Sequence

from .binary import Shape

DISJOINT, TOUCHES, EQUALS, WITHIN, CONTAINS, CROSSES, OVERLAPS = NAMES = (
    "disjoint", "touches", "equals", "within", "contains", "crosses", "overlaps",
)
# What a relation is where the two geometries are exchanged.
TURNED = {WITHIN: CONTAINS, CONTAINS: WITHIN}
DIMENSIONS = {"POINT": 0, "MULTIPOINT": 0, "LINESTRING": 1, "MULTILINESTRING": 1, "POLYGON": 2, "MULTIPOLYGON": 2}
# A point: its coordinates are whole numbers, or fractions where two edges cross.
Point = tuple[Any, Any]


class Relation(NamedTuple):
    """The name of a relation, and a point that both geometries have where it isn't `disjoint`: one of both interiors, or beside such points,
    where these meet."""

    name: str
    place: Optional[tuple[Fraction, Fraction]] = None


class Edge(NamedTuple):
    """An edge from a to b of the line or ring of this number, with its bounds. The area is left of it, or right."""

    left: int
    right: int
    low: int
    high: int
    a: Point
    b: Point
    chain: int
    is_area_left: bool


class Figure:
    """A geometry in whole numbers: its dimension, its points, or the edges of its lines or rings and the first point of each."""

    def __init__(self, shape: Shape, scale: int) -> None:
        self.dimension = DIMENSIONS[shape.word]
        self.points: set[Point] = set()
        self.edges: list[Edge] = []
        self.firsts: list[Point] = []
        # How many lines end in a point.
        self.ends: Counter[Point] = Counter()
        for part in shape.parts:
            for place, numbers in enumerate(part):
                found = positions(numbers, scale)
                if not self.dimension:
                    self.points.update(found)
                    continue
                if self.dimension == 1:
                    self.ends.update((found[0], found[-1]))
                self.add(found, is_hole=place > 0)

    def add(self, found: list[Point], is_hole: bool) -> None:
        """Takes the positions of a line or a ring."""
        is_left = (doubled_area(found) > 0) != is_hole
        chain = len(self.firsts)
        self.firsts.append(found[0])
        for a, b in zip(found, found[1:]):
            if a != b:
                (left, right), (low, high) = sorted((a[0], b[0])), sorted((a[1], b[1]))
                self.edges.append(Edge(left, right, low, high, a, b, chain, is_left))

    @property
    def is_empty(self) -> bool:
        """Whether it has no point."""
        return not self.points and not self.firsts

    @functools.cached_property
    def bounds(self) -> tuple[int, int, int, int]:
        """The least x, the greatest x, the least y and the greatest y of its edges, of which there is one at least."""
        its = self.edges
        return min(it.left for it in its), max(it.right for it in its), min(it.low for it in its), max(it.high for it in its)

    def meeting(self, left: Any, right: Any, low: Any, high: Any) -> list[Edge]:
        """Returns the edges whose bounds share a point with these."""
        return [it for it in self.edges if it.left <= right and it.right >= left and it.low <= high and it.high >= low]

    def is_inside(self, p: Point) -> bool:
        """Whether a point that isn't on the border is in the area: a way to the right crosses the border an odd number of times."""
        x, y = p
        left, right, low, high = self.bounds if self.edges else (x + 1, x, y, y)
        count = 0
        for it in self.meeting(x, right, y, y) if left <= x <= right and low <= y <= high else ():
            if it.right > x and (it.a[1] <= y) != (it.b[1] <= y):
                count += it.left > x or (turn(it.a, it.b, p) > 0) == (it.a[1] < it.b[1])
        return count % 2 == 1

    def has_on_edge(self, p: Point) -> bool:
        """Whether a point is on an edge."""
        return any(is_on(it, p) for it in self.meeting(p[0], p[0], p[1], p[1]))

    def is_end(self, p: Point) -> bool:
        """Whether a point is on the boundary of lines: an odd number of them end there (06-103r4, 6.1.6.1)."""
        return self.ends[p] % 2 == 1

    @property
    def odd_ends(self) -> Iterator[Point]:
        """The points of the boundary of lines."""
        return (p for p, count in self.ends.items() if count % 2)


def positions(numbers: Sequence[Any], scale: int) -> list[Point]:
    """Returns positions, whose numbers are multiplied by a power of two that makes them whole."""
    found = []
    for it in numbers:
        above, below = it.as_integer_ratio()
        found.append(above * (scale // below))
    return list(zip(found[::2], found[1::2]))


def scale_of(*shapes: Shape) -> int:
    """Returns the least power of two that makes the numbers of geometries whole."""
    return max((it.as_integer_ratio()[1] for shape in shapes for part in shape.parts for numbers in part for it in numbers), default=1)


def doubled_area(ring: list[Point]) -> int:
    """Returns twice the area within a ring, above 0 where it turns left."""
    return sum(a[0] * b[1] - b[0] * a[1] for a, b in zip(ring, ring[1:]))


def turn(a: Point, b: Point, p: Point) -> Any:
    """Returns a number above 0 where p is left of the way from a to b, below 0 where it is right, 0 on the line."""
    return (b[0] - a[0]) * (p[1] - a[1]) - (b[1] - a[1]) * (p[0] - a[0])


def is_on(edge: Edge, p: Point) -> bool:
    """Whether a point is on an edge."""
    return bool(edge.left <= p[0] <= edge.right and edge.low <= p[1] <= edge.high and turn(edge.a, edge.b, p) == 0)


# ---- where two borders meet ----


def near(one: Figure, other: Figure) -> Iterator[tuple[Edge, Edge]]:
    """Yields the pairs of edges of two figures whose bounds meet."""
    first, second = (sorted(its, key=lambda it: it.left) for its in (one.meeting(*other.bounds), other.meeting(*one.bounds)))
    yield from ((e, f) for e, f in swept(first, second, True))
    yield from ((e, f) for f, e in swept(second, first, False))


def swept(first: list[Edge], second: list[Edge], takes_same: bool) -> Iterator[tuple[Edge, Edge]]:
    """Yields the pairs whose bounds meet and of which the second begins within the first one's stretch of x, at its begin if that is taken."""
    begin, count = 0, len(second)
    for e in first:
        left, right, low, high = e[:4]
        while begin < count and (second[begin].left < left or (second[begin].left == left and not takes_same)):
            begin += 1
        for at in range(begin, count):
            f = second[at]
            if f.left > right:
                break
            if f.low <= high and f.high >= low:
                yield e, f


def shared(e: Edge, f: Edge) -> tuple[list[Point], bool]:
    """Returns the points that two edges share, of a stretch its two ends, and whether both cross in a point that is no end of either."""
    s, t = turn(e.a, e.b, f.a), turn(e.a, e.b, f.b)
    if (s > 0 and t > 0) or (s < 0 and t < 0):
        return [], False
    u, v = turn(f.a, f.b, e.a), turn(f.a, f.b, e.b)
    if (u > 0 and v > 0) or (u < 0 and v < 0):
        return [], False
    if s and t and u and v:
        along = Fraction(u, u - v)
        return [(e.a[0] + along * (e.b[0] - e.a[0]), e.a[1] + along * (e.b[1] - e.a[1]))], True
    found = [p for p, side, edge in ((f.a, s, e), (f.b, t, e), (e.a, u, f), (e.b, v, f)) if not side and is_on(edge, p)]
    return list(dict.fromkeys(found)), False


class Ray(NamedTuple):
    """A half of an edge, from a point on: its direction, and whether it is of the first figure, whose area is left of it or right."""

    x: Any
    y: Any
    is_first: bool
    is_area_left: bool


def rays(edge: Edge, p: Point, is_first: bool) -> list[Ray]:
    """Returns the halves of an edge from a point of it on: one from an end."""
    found = []
    for end, is_left in ((edge.b, edge.is_area_left), (edge.a, not edge.is_area_left)):
        if end != p:
            found.append(Ray(end[0] - p[0], end[1] - p[1], is_first, is_left))
    return found


def compared(one: Ray, other: Ray) -> int:
    """Compares the directions of two rays: below 0 where the first comes first, to the left around from the direction of x on."""
    halves = [it.y < 0 or (it.y == 0 and it.x < 0) for it in (one, other)]
    if halves[0] != halves[1]:
        return -1 if halves[1] else 1
    across = one.x * other.y - one.y * other.x
    return -1 if across > 0 else int(across < 0)


def around(found: list[Ray]) -> list[list[Ray]]:
    """Returns the rays of a point in the order of their directions, those of one direction together."""
    groups: list[list[Ray]] = []
    for it in sorted(set(found), key=functools.cmp_to_key(compared)):
        if groups and compared(groups[-1][0], it) == 0:
            groups[-1].append(it)
        else:
            groups.append([it])
    return groups


class Nodes:
    """The points that the edges of two figures share, each with the halves of edges from it on."""

    def __init__(self, one: Figure, other: Figure, stops: bool) -> None:
        """`stops` ends at the first point in which two edges cross, which is then `crossing`."""
        self.rays: dict[Point, list[Ray]] = {}
        self.chains: tuple[set[int], set[int]] = (set(), set())
        self.crossing: Optional[Point] = None
        # The edges of the other figure that run along an edge.
        along: dict[Edge, list[Edge]] = {}
        met = []
        for e, f in near(one, other) if one.edges and other.edges else ():
            points, crosses = shared(e, f)
            if crosses and stops:
                self.crossing = points[0]
                return
            if len(points) == 2:
                along.setdefault(e, []).append(f)
                along.setdefault(f, []).append(e)
            met += [(p, e, f) for p in points]
        for p, e, f in met:
            found = self.rays.setdefault(p, [])
            # Two edges that run along one another share each point of a stretch, of which only the ends are met.
            for it in (e, *(it for it in along.get(f, ()) if is_on(it, p))):
                found += rays(it, p, True)
            for it in (f, *(it for it in along.get(e, ()) if is_on(it, p))):
                found += rays(it, p, False)
            self.chains[0].add(e.chain)
            self.chains[1].add(f.chain)

    def uncut(self, figure: Figure, place: int) -> Iterator[Point]:
        """Yields the first point of each line or ring of one of the figures that shares no point with the other's."""
        return (p for chain, p in enumerate(figure.firsts) if chain not in self.chains[place])


def side_of(groups: list[list[Ray]], at: int, is_first: bool) -> bool:
    """Whether the sector after the group at this place is within the area of a figure, by the last ray of it there or before."""
    for back in range(len(groups)):
        for it in groups[at - back]:
            if it.is_first == is_first:
                return it.is_area_left
    raise AssertionError("each figure has a ray from a point that both share")


# ---- relations by dimensions ----


def of_areas(one: Figure, other: Figure) -> Relation:
    """Returns the relation of two areas."""
    nodes = Nodes(one, other, stops=True)
    if nodes.crossing:
        return Relation(OVERLAPS, nodes.crossing)
    # The parts of the plane that there are: in the first area or not, in the second or not; each with a point of its border.
    parts: dict[tuple[bool, bool], Point] = {}
    for p, found in nodes.rays.items():
        groups = around(found)
        for at in range(len(groups)):
            parts.setdefault((side_of(groups, at, True), side_of(groups, at, False)), p)
    for p in nodes.uncut(one, 0):
        for is_in_one in (True, False):
            parts.setdefault((is_in_one, other.is_inside(p)), p)
    for p in nodes.uncut(other, 1):
        for is_in_other in (True, False):
            parts.setdefault((one.is_inside(p), is_in_other), p)
    inner = parts.get((True, True))
    if inner is None:
        return Relation(TOUCHES, next(iter(nodes.rays))) if nodes.rays else Relation(DISJOINT)
    return Relation(by_inclusion((True, False) not in parts, (False, True) not in parts, OVERLAPS), inner)


def by_inclusion(is_within: bool, has_within: bool, else_: str) -> str:
    """Returns the relation of geometries whose interiors meet, by whether the first is in the second, and the second in the first."""
    return EQUALS if is_within and has_within else WITHIN if is_within else CONTAINS if has_within else else_


def of_line_and_area(line: Figure, area: Figure) -> Relation:
    """Returns the relation of lines and an area."""
    nodes = Nodes(line, area, stops=True)
    if nodes.crossing:
        return Relation(CROSSES, nodes.crossing)
    # Whether there is a part of the lines in the interior of the area, and one outside it; each with a point of it.
    parts: dict[bool, Point] = {}
    for p, found in nodes.rays.items():
        groups = around(found)
        for at, group in enumerate(groups):
            if all(it.is_first for it in group):
                parts.setdefault(side_of(groups, at, False), p)
    for p in nodes.uncut(line, 0):
        parts.setdefault(area.is_inside(p), p)
    return by_parts(parts, next(iter(nodes.rays), None))


def by_parts(parts: dict[bool, Point], border: Optional[Point]) -> Relation:
    """Returns the relation of points or lines to a geometry of a greater dimension, by a point of theirs in its interior, one outside it,
    and one on its boundary."""
    if True in parts:
        return Relation(CROSSES if False in parts else WITHIN, parts[True])
    return Relation(DISJOINT) if border is None else Relation(TOUCHES, border)


def of_lines(one: Figure, other: Figure) -> Relation:
    """Returns the relation of lines."""
    nodes = Nodes(one, other, stops=False)
    # Whether lines of one are outside the other, and where they run together, and meet in a point of both interiors.
    outside, along, inner = [any(nodes.uncut(one, 0)), any(nodes.uncut(other, 1))], None, None
    for p, found in nodes.rays.items():
        if not one.is_end(p) and not other.is_end(p):
            inner = inner or p
        for group in around(found):
            owners = {it.is_first for it in group}
            if len(owners) == 2:
                along = along or p
            else:
                outside[0 if True in owners else 1] = True
    if along:
        return Relation(by_inclusion(not outside[0], not outside[1], OVERLAPS), along)
    if inner:
        return Relation(CROSSES, inner)
    return Relation(TOUCHES, next(iter(nodes.rays))) if nodes.rays else Relation(DISJOINT)


def of_points(points: Figure, other: Figure) -> Relation:
    """Returns the relation of points to another geometry."""
    if not other.dimension:
        common = points.points & other.points
        name = by_inclusion(points.points <= other.points, points.points >= other.points, OVERLAPS)
        return Relation(name, next(iter(common))) if common else Relation(DISJOINT)
    parts: dict[bool, Point] = {}
    border = None
    for p in points.points:
        is_on_edge = other.has_on_edge(p)
        if is_on_edge and (other.dimension == 2 or other.is_end(p)):
            border = p
        else:
            parts.setdefault(is_on_edge if other.dimension == 1 else other.is_inside(p), p)
    return by_parts(parts, border)


def related(one: Shape, other: Shape) -> Relation:
    """Returns the exact relation of two valid geometries of doubles or whole numbers. An empty one is disjoint from all."""
    scale = scale_of(one, other)
    first, second = Figure(one, scale), Figure(other, scale)
    if first.is_empty or second.is_empty:
        return Relation(DISJOINT)
    is_turned = first.dimension > second.dimension
    if is_turned:
        first, second = second, first
    if not first.dimension:
        found = of_points(first, second)
    elif first.dimension == 1:
        found = (of_lines if second.dimension == 1 else of_line_and_area)(first, second)
    else:
        found = of_areas(first, second)
    name = TURNED.get(found.name, found.name) if is_turned else found.name
    return Relation(name, found.place and (Fraction(found.place[0]) / scale, Fraction(found.place[1]) / scale))


@functools.lru_cache(maxsize=None)
def named(matrix: str, one: int, other: int) -> str:
    """Returns the relation of geometries of these dimensions with this DE-9IM matrix."""
    if all(matrix[it] == "F" for it in (0, 1, 3, 4)):
        return DISJOINT
    if matrix[0] == "F":
        return TOUCHES
    if one == other == 1 and matrix[0] == "0":
        return CROSSES
    return by_inclusion(matrix[2] == matrix[5] == "F", matrix[6] == matrix[7] == "F", OVERLAPS if one == other else CROSSES)
