"""Cuts areas whose rings touch in points, which sfq refuses (V4, V7), into areas that it takes. None of it is proved.

Where a hole touches another ring in a point, the area is cut once more, along a line between two vertices: then each piece has that point
once. No vertex is added or moved, so together the pieces are the area, exactly. Areas that share a point come into different parts.
"""
from __future__ import annotations

import heapq
import re
from typing import Callable, Iterator, NamedTuple, Optional, Sequence

from ..geometry import texts
from .parting import Parted, Position, Ring, Rings, Undivided, spelled

# How many lines are tried for a cut, between how many pairs of vertices at most, and how many cuts and moves one geometry gets.
TRIES, PAIRS, MOST = 400, 200_000, 5_000
# The reasons of sfq for rings and areas that share a point, and no more than that.
RINGS = re.compile(r"V4 (\d+) (\d+): .* share (-?\d+) (-?\d+)$")
AREAS = re.compile(r"V7 (\d+) (\d+)\b")
CODES = ("V4", "V7")

# What says why sfq refuses each of some texts, None of one that it takes.
Reasons = Callable[[list[str]], list[Optional[str]]]


def parted(text: str, reasons: Reasons) -> Parted:
    """Returns texts that sfq takes, which together are the area of a text of which GEOS says that it is valid. Undivided where none are found."""
    name, coordinates = texts.coordinates(text)
    if name not in ("Polygon", "MultiPolygon"):
        raise Undivided("it is no area")
    areas = [it for each in ([coordinates] if name == "Polygon" else coordinates) for it in pieces(each, reasons)]
    if sum(map(area, areas)) != sum(map(area, [coordinates] if name == "Polygon" else coordinates)):
        raise Undivided("its parts aren't the whole")
    return spelled([("Polygon", it[0]) if len(it) == 1 else ("MultiPolygon", it) for it in groups(areas, reasons)])


# ---- areas that share a point ----


def groups(areas: Sequence[Rings], reasons: Reasons) -> list[list[Rings]]:
    """Returns areas in as many groups as it takes, none of which sfq refuses."""
    found: list[list[Rings]] = [[]]
    # Areas that have a vertex in common share a point; sfq says which of the others do.
    vertices: list[set[Position]] = [set()]
    for it in areas:
        own = {position for ring in it for position in ring}
        at = next((at for at, its in enumerate(vertices) if own.isdisjoint(its)), len(found))
        if at == len(found):
            found.append([])
            vertices.append(set())
        found[at].append(it)
        vertices[at] |= own
    at = moves = 0
    while at < len(found):
        (reason,) = reasons([texts.spelled("MultiPolygon", found[at])])
        if reason is None:
            at += 1
            continue
        both = AREAS.match(reason)
        moves += 1
        if not both or moves > MOST:
            raise Undivided(reason)
        found += [[]] * (at + 1 == len(found))
        found[at + 1] = [*found[at + 1], found[at].pop(int(both[2]))]
    return found


# ---- rings that share a point ----


def pieces(polygon: Rings, reasons: Reasons) -> Iterator[Rings]:
    """Yields the pieces of an area, no two of whose rings share a point."""
    left, cuts = [polygon], 0
    while left:
        it = left.pop()
        (reason,) = reasons([texts.spelled("Polygon", it)])
        if reason is None:
            yield it
            continue
        shared = RINGS.match(reason)
        cuts += 1
        if not shared or cuts > MOST:
            raise Undivided(reason)
        one, other, x, y = map(int, shared.groups())
        left += cut(it, sorted((one, other)), (x, y))


def twice_area(ring: Ring) -> int:
    """Returns twice the area of a ring, negative where it is clockwise."""
    return sum(a[0] * b[1] - b[0] * a[1] for a, b in zip(ring, ring[1:]))


def area(polygon: Rings) -> int:
    """Returns twice the area of a polygon."""
    return abs(twice_area(polygon[0])) - sum(abs(twice_area(it)) for it in polygon[1:])


def side(a: Position, b: Position, c: Position) -> int:
    """Returns which side of the line from a to b has c: more than 0 left of it, 0 on it."""
    return (b[0] - a[0]) * (c[1] - a[1]) - (b[1] - a[1]) * (c[0] - a[0])


def is_between(a: Position, b: Position, c: Position) -> bool:
    """Whether a position is on a segment."""
    return (side(a, b, c) == 0 and min(a[0], b[0]) <= c[0] <= max(a[0], b[0]) and min(a[1], b[1]) <= c[1] <= max(a[1], b[1]))


def begun_at(ring: Ring, at: Position, is_outer: bool) -> list[Position]:
    """Returns the positions of a ring from one of its points on, once each, the inside of the area to the left. The point may be on an edge."""
    found = list(ring[:-1] if (twice_area(ring) > 0) == is_outer else ring[:0:-1])
    if at not in found:
        place = next((number for number, it in enumerate(found) if is_between(it, found[(number + 1) % len(found)], at)), None)
        if place is None:
            raise Undivided("a ring doesn't have the point that it shares")
        found.insert(place + 1, at)
    place = found.index(at)
    return found[place:] + found[:place]


class Line(NamedTuple):
    """A line between a vertex of one ring and a vertex of another, by their places."""

    length: int
    first: int
    second: int


def lines(one: Sequence[Position], other: Sequence[Position]) -> list[Line]:
    """Returns the shortest lines between vertices of two rings behind their first ones, the shortest first."""
    step = max(1, len(one) * len(other) // PAIRS)
    both = (Line((a[0] - b[0]) ** 2 + (a[1] - b[1]) ** 2, k, l) for k, a in enumerate(one) if k for l, b in enumerate(other[::step]) if l)
    return [it._replace(second=it.second * step) for it in heapq.nsmallest(TRIES, both)]


def is_within(a: Position, b: Position, before: Position, behind: Position) -> bool:
    """Whether the line from a to b begins inside the area, which is to the left of the edges before and behind a."""
    if side(before, a, behind) > 0:
        return side(before, a, b) > 0 and side(a, behind, b) > 0
    return side(before, a, b) > 0 or side(a, behind, b) > 0


def is_free(a: Position, b: Position, edges: Sequence[tuple[Position, Position]]) -> bool:
    """Whether a line has no point of edges but those that begin or end where it does."""
    left, right, low, high = min(a[0], b[0]), max(a[0], b[0]), min(a[1], b[1]), max(a[1], b[1])
    for c, d in edges:
        if (c[0] < left and d[0] < left) or (c[0] > right and d[0] > right) or (c[1] < low and d[1] < low) or (c[1] > high and d[1] > high):
            continue
        ends = [it for it in (c, d) if it in (a, b)]
        if len(ends) == 2:
            return False
        if ends:
            # It goes on from an end of the line, which has none of it but that.
            further = d if ends[0] == c else c
            if is_between(a, b, further) or is_between(c, d, b if ends[0] == a else a):
                return False
            continue
        if min(side(a, b, c), side(a, b, d)) <= 0 <= max(side(a, b, c), side(a, b, d)) and \
                min(side(c, d, a), side(c, d, b)) <= 0 <= max(side(c, d, a), side(c, d, b)):
            return False
    return True


def cut(polygon: Rings, both: Sequence[int], shared: Position) -> list[Rings]:
    """Returns an area in two pieces, which have the point once that two of its rings share."""
    one, other = (begun_at(polygon[it], shared, it == 0) for it in both)
    rest = [it for at, it in enumerate(polygon) if at not in both]
    rings = [one, other, *(it[:-1] for it in rest)]
    edges = [(ring[at - 1], it) for ring in rings for at, it in enumerate(ring)]
    of_more = shared_by(rings)
    for _, k, l in lines(one, other):
        a, b = one[k], other[l]
        if a in of_more or b in of_more:
            continue
        if not is_within(a, b, one[k - 1], one[(k + 1) % len(one)]) or not is_within(b, a, other[l - 1], other[(l + 1) % len(other)]):
            continue
        if is_free(a, b, edges):
            # From each end of the line to the other, by the point that is shared.
            first = [*one[k:], *other[: l + 1], a]
            second = [*other[l:], *one[: k + 1], b]
            return placed(first, second, rest, is_outer=both[0] == 0, whole=polygon)
    raise Undivided("no line between two vertices cuts it where its rings touch")


def shared_by(rings: Sequence[Sequence[Position]]) -> set[Position]:
    """Returns the positions that more than one ring has."""
    known: set[Position] = set()
    found: set[Position] = set()
    for it in rings:
        own = set(it)
        found |= own & known
        known |= own
    return found


def placed(first: Ring, second: Ring, rest: Sequence[Ring], is_outer: bool, whole: Rings) -> list[Rings]:
    """Returns the two pieces that rings bound, each with those of the other rings that are inside."""
    inner = [first, second]
    if is_outer:
        outer, holes = [first, second], list(rest)
        found: list[list[Ring]] = [[it] for it in outer]
    else:
        # Of two holes one line closes off what is between them; the other ring is what is left of both.
        inner.sort(key=twice_area)
        outer, holes = [inner[1]], list(rest[1:])
        found = [[whole[0], inner[0]], [inner[1]]]
    for it in holes:
        at = next((number for number, ring in enumerate(outer) if is_inside(it, ring)), None)
        if at is None and is_outer:
            raise Undivided("a hole is in no piece")
        found[at if is_outer and at is not None else 0 if at is None else 1].append(it)
    return [list(it) for it in found]


def is_inside(hole: Ring, ring: Ring) -> bool:
    """Whether a hole is inside a ring, which it may touch."""
    for a, b in zip(hole, hole[1:]):
        # Twice as large, so that the middle of an edge is whole too.
        for at in ((2 * a[0], 2 * a[1]), (a[0] + b[0], a[1] + b[1])):
            found = location(at, [(2 * x, 2 * y) for x, y in ring])
            if found:
                return found > 0
    return False


def location(at: Position, ring: Ring) -> int:
    """Returns whether a position is inside a ring, 1, outside, -1, or on it, 0."""
    is_in = False
    for a, b in zip(ring, ring[1:]):
        if is_between(a, b, at):
            return 0
        if (a[1] > at[1]) != (b[1] > at[1]):
            left = side(a, b, at) > 0
            is_in ^= left == (b[1] > a[1])
    return 1 if is_in else -1
