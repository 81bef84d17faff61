"""Parts a geometry on the grid that has more positions, rings or elements than sfq takes. None of it is proved.

Lines are parted at their positions, points and elements into groups: together the parts are the same set of points. A polygon that is
too large is cut along lines of the grid, x = n or y = n, one after another. Where a line cuts an edge, the edge first gets the position
of the grid on that line that is nearest to it, which bends the edge by at most half a step. Lines are chosen that bend edges least, and
many bend none. The parts together are the polygon with these positions, exactly: after each cut the edges of the two sides have to sum up
to those of the whole, each with its direction, so that what lies on the line cancels out.
"""
from __future__ import annotations

from collections import Counter
from typing import Any, Iterable, Iterator, NamedTuple, Sequence

from ..geometry import texts

MOST_POSITIONS, MOST_PARTS = 10_000, 1_000
# How many lines are looked at for a cut, and tried.
LINES, TRIES = 40, 2
# How deep cuts of one polygon go: each halves its positions, or nearly so.
DEEPEST = 40

Position = tuple[int, int]
Ring = Sequence[Position]
Rings = Sequence[Ring]


class Undivided(Exception):
    """Why a geometry can't be parted."""


class Parted(NamedTuple):
    """The texts of the parts, how many positions were put in where edges are cut, and how far the farthest is from its edge, in steps."""

    texts: list[str]
    put_in: int
    greatest: float


def parted(ogr: Any, text: str, choice: int = 0) -> Parted:
    """Returns the parts of a geometry by its canonical text. Another choice cuts along other lines. Undivided where it can't be parted."""
    name, parts = texts.coordinates(text)
    if name == "MultiPoint":
        return spelled([("MultiPoint", parts[at:at + MOST_POSITIONS]) for at in range(0, len(parts), MOST_POSITIONS)])
    if name == "LineString":
        return spelled([("LineString", it) for it in stretches(parts)])
    if name == "MultiLineString":
        return spelled(grouped("MultiLineString", [it for each in parts for it in stretches(each)], lambda it: (len(it), 1)))
    cuts, whole = Cuts(ogr, choice), [parts] if name == "Polygon" else parts
    small = grouped("MultiPolygon", [it for it in whole if fits(it)], sizes)
    found = spelled([*small, *[("Polygon", piece) for it in whole if not fits(it) for piece in cuts.pieces(it)]])
    return found._replace(put_in=cuts.put_in, greatest=cuts.greatest)


def spelled(parts: Iterable[tuple[str, Any]]) -> Parted:
    """Returns the parts by their types and coordinates."""
    return Parted([texts.spelled(name, it) for name, it in parts], 0, 0.0)


def stretches(line: Ring) -> Iterator[Ring]:
    """Returns the stretches of a line that are short enough, each from the last position of the one before it on."""
    for at in range(0, len(line) - 1, MOST_POSITIONS - 1):
        yield line[at:at + MOST_POSITIONS]


def sizes(polygon: Rings) -> tuple[int, int]:
    """Returns how many positions and rings a polygon has."""
    return sum(map(len, polygon)), len(polygon)


def fits(polygon: Rings) -> bool:
    """Whether sfq takes a polygon of this size."""
    positions, rings = sizes(polygon)
    return positions <= MOST_POSITIONS and rings <= MOST_PARTS


def grouped(name: str, elements: Sequence[Any], size: Any) -> list[tuple[str, Any]]:
    """Returns groups of elements in their order, each as large as sfq takes."""
    groups: list[list[Any]] = []
    positions = parts = 0
    for it in elements:
        more, inner = size(it)
        if not groups or positions + more > MOST_POSITIONS or parts + inner > MOST_PARTS:
            groups.append([])
            positions = parts = 0
        groups[-1].append(it)
        positions, parts = positions + more, parts + inner
    return [(name, it) for it in groups]


# ---- polygons ----


class Cuts:
    """The cuts of a geometry's polygons."""

    def __init__(self, ogr: Any, choice: int) -> None:
        self.ogr, self.choice = ogr, choice
        self.put_in, self.greatest = 0, 0.0

    def pieces(self, polygon: Rings, depth: int = 0) -> Iterator[Rings]:
        """Returns the pieces of a polygon, each of a size that sfq takes."""
        if fits(polygon):
            yield polygon
            return
        if not depth and len({(a, b) if a < b else (b, a) for a, b in edges(polygon)}) < sum(len(it) - 1 for it in polygon):
            raise Undivided("it has an edge twice")
        for it in self.halves(polygon, depth):
            yield from self.pieces(it, depth + 1)

    def halves(self, polygon: Rings, depth: int) -> list[Rings]:
        """Returns the pieces on both sides of a line. Undivided where no line has been found."""
        extents = [[f(it[axis] for it in polygon[0]) for f in (min, max)] for axis in (0, 1)]
        longer = 0 if extents[0][1] - extents[0][0] >= extents[1][1] - extents[1][0] else 1
        chosen = ((axis, at) for axis in (longer, 1 - longer) for at in lines(polygon, axis)[self.choice:self.choice + TRIES])
        for axis, at in chosen if depth < DEEPEST else ():
            bent, put_in, greatest = with_crossings(polygon, axis, at)
            found = [it for side in (0, 1) for it in self.side(bent, extents, axis, at, side)]
            if are_whole(bent, found, axis, at):
                self.put_in += put_in
                self.greatest = max(self.greatest, greatest)
                return found
        raise Undivided("no line of the grid cuts it in two, as where rings cross")

    def side(self, polygon: Rings, extents: list[list[int]], axis: int, at: int, side: int) -> list[Rings]:
        """Returns the pieces of a polygon on one side of a line, by GEOS."""
        box = [[low - 1, high + 1] for low, high in extents]
        box[axis][1 - side] = at
        (left, right), (low, high) = box
        frame = ((left, low), (right, low), (right, high), (left, high), (left, low))
        try:
            whole, half = (self.ogr.CreateGeometryFromWkt(texts.spelled("Polygon", it)) for it in (polygon, (frame,)))
            return list(polygons(self.ogr, whole.Intersection(half)))
        except RuntimeError:
            return []


def polygons(ogr: Any, geometry: Any) -> Iterator[Rings]:
    """Returns the polygons of a geometry of GDAL whose coordinates are whole."""
    if geometry is None:
        return
    if ogr.GT_Flatten(geometry.GetGeometryType()) == ogr.wkbPolygon:
        rings = [geometry.GetGeometryRef(at).GetPoints() for at in range(geometry.GetGeometryCount())]
        yield [[(int(x), int(y)) for x, y, *_ in it] for it in rings]
        return
    for at in range(geometry.GetGeometryCount()):
        yield from polygons(ogr, geometry.GetGeometryRef(at))


def edges(polygon: Rings) -> Iterator[tuple[Position, Position]]:
    """Returns the edges of a polygon."""
    for ring in polygon:
        yield from zip(ring, ring[1:])


def crossing(a: Position, b: Position, axis: int, at: int) -> tuple[int, float]:
    """Returns the coordinate, on the other axis, of the position of a line of the grid that is nearest to an edge across it, and how far it is."""
    if a[axis] > b[axis]:
        a, b = b, a
    width = b[axis] - a[axis]
    past = (b[1 - axis] - a[1 - axis]) * (at - a[axis])
    found = (2 * past + width) // (2 * width)
    return a[1 - axis] + found, abs(past - found * width) / width


def is_across(a: Position, b: Position, axis: int, at: int) -> bool:
    """Whether an edge has an end on either side of a line."""
    return a[axis] < at < b[axis] or b[axis] < at < a[axis]


def lines(polygon: Rings, axis: int) -> list[int]:
    """Returns lines near the middle of a polygon's positions, those first that bend edges least."""
    values = sorted(it[axis] for ring in polygon for it in ring[1:])
    middle = values[len(values) // 2]
    near = values[len(values) * 2 // 5:len(values) * 3 // 5 + 1]
    found = {it + more for it in near[::max(1, len(near) // (LINES // 2))] for more in (0, 1) if values[0] < it + more < values[-1]}
    across = [it for it in edges(polygon) if min(it[0][axis], it[1][axis]) <= near[-1] and max(it[0][axis], it[1][axis]) >= near[0]]

    def cost(at: int) -> tuple[float, int, int]:
        bends = [crossing(a, b, axis, at)[1] for a, b in across if is_across(a, b, axis, at)]
        return round(max(bends, default=0.0), 3), abs(at - middle), at

    return sorted(found, key=cost)


def with_crossings(polygon: Rings, axis: int, at: int) -> tuple[Rings, int, float]:
    """Returns a polygon with a position on a line in each edge across it, how many of them aren't on their edge, and the greatest distance."""
    found, put_in, greatest = [], 0, 0.0
    for ring in polygon:
        more = list(ring[:1])
        for a, b in zip(ring, ring[1:]):
            if is_across(a, b, axis, at):
                other, past = crossing(a, b, axis, at)
                more.append((at, other) if axis == 0 else (other, at))
                put_in += past > 0
                # How far it is from the edge itself is less than along the line.
                greatest = max(greatest, past)
            more.append(b)
        found.append(more)
    return found, put_in, greatest


def are_whole(polygon: Rings, pieces: Sequence[Rings], axis: int, at: int) -> bool:
    """Whether the directed edges of pieces on both sides of a line sum up to those of the polygon."""
    on_line = sorted({it[1 - axis] for each in (polygon, *pieces) for ring in each for it in ring if it[axis] == at})
    place = {it: number for number, it in enumerate(on_line)}
    count: Counter[Any] = Counter()
    for sign, each in ((-1, polygon), *((1, it) for it in pieces)):
        for a, b in (edge for number, ring in enumerate(each) for edge in directed(ring, number == 0)):
            if a[axis] == at == b[axis]:
                # An edge on the line counts as the stretches between the positions that are on it.
                low, high = sorted((place[a[1 - axis]], place[b[1 - axis]]))
                for it in range(low, high):
                    count[it] += sign if a < b else -sign
            else:
                count[(a, b) if a < b else (b, a)] += sign if a < b else -sign
    return not any(count.values())


def directed(ring: Ring, is_outer: bool) -> Iterator[tuple[Position, Position]]:
    """Returns the edges of a ring, the inside of the polygon to the left of each."""
    area = sum(a[0] * b[1] - b[0] * a[1] for a, b in zip(ring, ring[1:]))
    return zip(ring, ring[1:]) if (area > 0) == is_outer else zip(ring[1:], ring)
