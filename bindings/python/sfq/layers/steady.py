"""Which areas meet in the same way wherever their vertices are within half a step of the grid, so that rounding can't have changed their relation.

Let all vertices go straight from the source to the grid. A vertex that two areas share in the source they share all the way. If no two of
their edges come to meet on the way, or cease to, then the boundaries stay apart where they were apart, cross where they crossed, and run
along each other where they did. So each piece of one boundary stays inside or outside of the other area. And if no ring turns over and no
vertex folds over, the inside of each edge and of each corner stays on its side. Then the matrix of two areas that are valid in the source and
on the grid is the same in both.

All is computed from whole numbers, exactly, and says nothing of pairs of which this isn't sure. None of it is proved.
"""
from __future__ import annotations

import ctypes
from typing import Any, Iterator, NamedTuple, Sequence

from ..geometry import grids, library

# The types of areas, and how many bytes a position has in doubles, and in steps.
POLYGON, MULTIPOLYGON = 3, 6
SIZE, SIZE_OF_STEPS = 16, 8
# How many positions a ring has at least.
LEAST = 4
# How many edges are looked at in one go, and how many pairs of edges; how many pairs of edges two areas have at most where they are near.
MOST_EDGES, MOST_AT_ONCE, MOST_PAIRS = 400_000, 1_000_000, 40_000


class Taken(NamedTuple):
    """What geometries have that are areas: the place of the one that each ring is of, how many positions it has, and all positions, as the bytes
    of doubles and of steps."""

    owners: list[int]
    sizes: list[int]
    doubles: bytes
    steps: bytes


def taken(binaries: Sequence[bytes], grid: grids.Grid) -> Taken:
    """Takes geometries apart, and rounds their positions."""
    rooms, owners, sizes, doubles, steps = library.of_thread().rooms, [], [], [], []
    pieces = rooms.pieces
    for at, it in enumerate(binaries):
        if rooms.take_apart(it, grid.numbers) == library.OK and pieces.type in (POLYGON, MULTIPOLYGON):
            lines = rooms.lines[: pieces.line_count]
            if min(lines, default=0) < LEAST:
                continue
            owners += [at] * len(lines)
            sizes += lines
            doubles.append(ctypes.string_at(pieces.coordinates, SIZE * pieces.positions))
            steps.append(ctypes.string_at(pieces.steps, SIZE_OF_STEPS * pieces.positions))
    return Taken(owners, sizes, b"".join(doubles), b"".join(steps))


class Near(NamedTuple):
    """Edges of the areas of some pairs: the number of the pair of each, and its number among the edges of the table."""

    pairs: Any
    edges: Any


class Outlines:
    """The edges of the areas of a table, in the source and on the grid.

    `fits` says of which geometries something can be said: areas of which no edge vanishes on the grid, no vertex can fold over and no ring can
    turn over.
    """

    def __init__(self, binaries: Sequence[bytes], boxes: Sequence[tuple[int, int, int, int]], grid: grids.Grid) -> None:
        import numpy

        self.boxes = numpy.array(boxes, dtype=numpy.int32).reshape(-1, 4).T.copy()
        self.fits = numpy.zeros(len(binaries), dtype=bool)
        self.begins = self.counts = numpy.zeros(len(binaries), dtype=numpy.int64)
        found = taken(binaries, grid)
        if not found.sizes:
            return
        owner, sizes = (numpy.array(it, dtype=numpy.int64) for it in (found.owners, found.sizes))
        self.source = numpy.frombuffer(found.doubles).reshape(-1, 2)
        steps = numpy.frombuffer(found.steps, dtype=numpy.int32).reshape(-1, 2)
        # Doubles are exact for products of two differences of steps, and their sums; only the sums of rings may be greater.
        self.steps = steps.astype(float)
        # Each position but the last of a ring begins an edge, which ends at the next one.
        begins_edge = numpy.ones(len(self.steps), dtype=bool)
        begins_edge[numpy.cumsum(sizes) - 1] = False
        self.edges = numpy.flatnonzero(begins_edge)
        one, other = (steps[it].astype(numpy.int64) for it in (self.edges, self.edges + 1))
        # The least x and y of each edge, and the greatest.
        self.least, self.most = (numpy.ascontiguousarray(it.T, dtype=numpy.int32) for it in (numpy.minimum(one, other), numpy.maximum(one, other)))
        lengths = abs(other - one).sum(axis=1)
        firsts = numpy.cumsum(sizes - 1) - (sizes - 1)
        # Twice the area of each ring. Each step of each vertex in x and in y changes it by less than this bound.
        front = numpy.repeat(one[firsts], sizes - 1, axis=0)
        areas = numpy.add.reduceat(cross(one - front, other - front), firsts)
        bounds = numpy.add.reduceat(lengths, firsts) + sizes
        # The next edge of a ring, of its last edge the first; and where a vertex may fold over, so that the inside of both edges is on other
        # sides of it.
        following = numpy.arange(len(one)) + 1
        following[firsts + sizes - 2] = firsts
        back, out = one - other, (other - one)[following]
        folds = numpy.logical_or.reduceat(are_unsure(back, out), firsts)
        holds = (abs(areas) > bounds) & (numpy.minimum.reduceat(lengths, firsts) > 0) & ~folds
        self.counts = numpy.bincount(owner, weights=sizes - 1, minlength=len(binaries)).astype(numpy.int64)
        self.begins = numpy.cumsum(self.counts) - self.counts
        self.fits[owner] = True
        self.fits[owner[~holds]] = False

    def near(self, places: Any, windows: Any) -> Near:
        """Returns the edges of some areas whose boxes meet the window of each."""
        pairs, edges = spread(self.begins[places], self.counts[places])
        for axis, (low, high) in enumerate(windows):
            are_near = (self.least[axis][edges] <= high[pairs]) & (self.most[axis][edges] >= low[pairs])
            pairs, edges = pairs[are_near], edges[are_near]
        return Near(pairs, edges)


def cross(one: Any, other: Any) -> Any:
    """Returns the cross products of vectors."""
    return one[:, 0] * other[:, 1] - one[:, 1] * other[:, 0]


def doubt(one: Any, other: Any) -> Any:
    """Returns by how much the cross product of two vectors changes at most, and their dot product, where each of their ends moves by half a step
    in x and in y."""
    return abs(one[:, 0]) + abs(one[:, 1]) + abs(other[:, 0]) + abs(other[:, 1]) + 2


def side(one: Any, other: Any) -> Any:
    """Returns on which side of vectors others are, 1 or -1, wherever their ends are within half a step; 0 where that isn't sure."""
    import numpy

    product = cross(one, other)
    return numpy.where(abs(product) > doubt(one, other), numpy.sign(product), 0)


def are_unsure(one: Any, other: Any) -> Any:
    """Returns of which pairs of edges from one vertex one may come to lie along the other."""
    return (side(one, other) == 0) & ((one * other).sum(axis=1) >= -doubt(one, other))


def spread(begins: Any, counts: Any) -> tuple[Any, Any]:
    """Returns the number of each range as often as it has numbers, and its numbers."""
    import numpy

    owners = numpy.repeat(numpy.arange(len(counts)), counts)
    return owners, numpy.arange(len(owners)) + numpy.repeat(begins - (numpy.cumsum(counts) - counts), counts)


class Pairs:
    """Pairs of areas of one table, or of two."""

    def __init__(self, first: Outlines, second: Outlines) -> None:
        self.first, self.second = first, second

    def steady(self, firsts: Any, seconds: Any) -> Any:
        """Returns of which pairs, by the places of both, the areas have a vertex in common or cross, and meet in the same way wherever their
        vertices are within half a step."""
        import numpy

        found = numpy.zeros(len(firsts), dtype=bool)
        fit = numpy.flatnonzero(self.first.fits[firsts] & self.second.fits[seconds])
        for part in shares(fit, self.first.counts[firsts[fit]] + self.second.counts[seconds[fit]], MOST_EDGES):
            found[part] = self.of_part(firsts[part], seconds[part])
        return found

    def of_part(self, firsts: Any, seconds: Any) -> Any:
        """Returns that of pairs that have few edges."""
        import numpy

        one, other = self.first.boxes[:, firsts], self.second.boxes[:, seconds]
        # Edges that can come to meet are within a step of both boxes.
        windows = [(numpy.maximum(one[at], other[at]) - 1, numpy.minimum(one[at + 1], other[at + 1]) + 1) for at in (0, 2)]
        ours, theirs = self.first.near(firsts, windows), self.second.near(seconds, windows)
        counts = [numpy.bincount(it.pairs, minlength=len(firsts)) for it in (ours, theirs)]
        begins = [numpy.cumsum(it) - it for it in counts]
        products = counts[0] * counts[1]
        found = numpy.zeros(len(firsts), dtype=bool)
        few = numpy.flatnonzero((products > 0) & (products <= MOST_PAIRS))
        for part in shares(few, products[few], MOST_AT_ONCE):
            # Each edge of the first area with each of the second.
            owners, mine = spread(begins[0][part], counts[0][part])
            at, its = spread(begins[1][part][owners], counts[1][part][owners])
            owners, mine, its = owners[at], ours.edges[mine[at]], theirs.edges[its]
            for axis in (0, 1):
                # Edges that are more than a step apart never meet.
                near = numpy.flatnonzero((self.first.least[axis][mine] <= self.second.most[axis][its] + 1) & (self.second.least[axis][its] <= self.first.most[axis][mine] + 1))
                owners, mine, its = owners[near], mine[near], its[near]
            is_unsure, do_meet = self.of_edges(mine, its)
            unsure, meeting = (numpy.bincount(owners[it], minlength=len(part)) for it in (is_unsure, do_meet))
            found[part] = (unsure == 0) & (meeting > 0)
        return found

    def of_edges(self, ours: Any, theirs: Any) -> tuple[Any, Any]:
        """Returns for which pairs of edges it isn't sure that they meet in the same way wherever their ends are within half a step, and which meet."""
        import numpy

        begin, start = self.first.edges[ours], self.second.edges[theirs]
        one, other = self.first.steps, self.second.steps
        p, q, r, s = one[begin], one[begin + 1], other[start], other[start + 1]
        # Which ends are one vertex on the grid, and whether they are in the source.
        same = {}
        is_unsure = numpy.zeros(len(ours), dtype=bool)
        for name, mine, its, at, to in (("pr", p, r, begin, start), ("ps", p, s, begin, start + 1), ("qr", q, r, begin + 1, start), ("qs", q, s, begin + 1, start + 1)):
            same[name] = (mine[:, 0] == its[:, 0]) & (mine[:, 1] == its[:, 1])
            some = numpy.flatnonzero(same[name])
            is_unsure[some] |= (self.first.source[at[some]] != self.second.source[to[some]]).any(axis=1)
        are_one = (same["pr"] & same["qs"]) | (same["ps"] & same["qr"])
        has_first, has_second = same["pr"] | same["ps"], same["pr"] | same["qr"]
        shared = has_first | same["qr"] | same["qs"]
        # Two edges from one vertex: neither lies along the other, or they go opposite ways.
        some = numpy.flatnonzero(shared & ~are_one)
        at = numpy.where(has_first[some, None], p[some], q[some])
        out = numpy.where(has_first[some, None], q[some], p[some]) - at
        back = numpy.where(has_second[some, None], s[some], r[some]) - at
        is_unsure[some] |= are_unsure(out, back)
        # Two edges without a common vertex: the ends of one are on one side of the other, or they cross.
        some = numpy.flatnonzero(~shared)
        p, q, r, s = p[some], q[some], r[some], s[some]
        of_first = side(q - p, r - p) * side(q - p, s - p)
        of_second = side(s - r, p - r) * side(s - r, q - r)
        crosses = (of_first == -1) & (of_second == -1)
        is_unsure[some] |= ~((of_first == 1) | (of_second == 1) | crosses)
        meets = shared
        meets[some] |= crosses
        return is_unsure, meets


def shares(places: Any, costs: Any, most: int) -> Iterator[Any]:
    """Yields places one after another, as many at once as cost no more than so much together."""
    import numpy

    if len(places):
        number = (numpy.cumsum(costs) - costs) // most
        yield from numpy.split(places, numpy.flatnonzero(numpy.diff(number)) + 1)


def is_there() -> bool:
    """Whether numpy is."""
    try:
        import numpy

        return bool(numpy.__version__)
    except ImportError:
        return False
