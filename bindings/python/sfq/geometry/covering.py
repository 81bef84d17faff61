"""Borders of areas on a grid: which vertices lie on edges, and what a set of areas encloses and doesn't cover. All of it is exact; none of it is proved."""
from __future__ import annotations

import functools
from collections import Counter, defaultdict
from typing import Iterable, Iterator, Sequence

from . import texts

Position = tuple[int, int]
Ring = list[Position]
Edge = tuple[Position, Position]


def rings_of(text: str) -> list[Ring]:
    """Returns the rings of the text of a POLYGON or MULTIPOLYGON, without their last positions, each with the area on its left. None of another text."""
    name, parts = texts.coordinates(text)
    polygons = {"Polygon": [parts] if parts else [], "MultiPolygon": list(parts)}.get(name, [])
    found = []
    for polygon in polygons:
        for number, it in enumerate(polygon):
            ring = [(int(x), int(y)) for x, y in it[:-1]]
            found.append(ring if (doubled_area(ring) > 0) == (number == 0) else ring[::-1])
    return found


def doubled_area(ring: Sequence[Position]) -> int:
    """Returns twice the area within a ring, which is below 0 if the ring goes clockwise."""
    return sum(a[0] * b[1] - a[1] * b[0] for a, b in zip(ring, [*ring[1:], *ring[:1]]))


def edges_of(ring: Sequence[Position]) -> Iterator[Edge]:
    """Yields the edges of a ring."""
    return zip(ring, [*ring[1:], *ring[:1]])


def is_between(position: Position, edge: Edge) -> bool:
    """Whether a position is on an edge and neither of its ends."""
    (x, y), ((ax, ay), (bx, by)) = position, edge
    if (bx - ax) * (y - ay) != (by - ay) * (x - ax):
        return False
    return position not in edge and min(ax, bx) <= x <= max(ax, bx) and min(ay, by) <= y <= max(ay, by)


def split(ring: Sequence[Position], positions: Iterable[Position]) -> Ring:
    """Returns a ring with those of some positions as further vertices that are on its edges."""
    left, found = list(positions), []
    for edge in edges_of(ring):
        (x, y), _ = edge
        here = sorted((it for it in left if is_between(it, edge)), key=lambda it: abs(it[0] - x) + abs(it[1] - y))
        found += [edge[0], *here]
    return found


def outer_edges(rings: Iterable[Sequence[Position]]) -> Counter[Edge]:
    """Returns the edges that no area has the other way round, each with how often it is there."""
    found: Counter[Edge] = Counter()
    for ring in rings:
        for a, b in edges_of(ring):
            if found[b, a] > 0:
                found[b, a] -= 1
            else:
                found[a, b] += 1
    return +found


def loops(edges: Counter[Edge], is_left: bool = False) -> Iterator[Ring]:
    """Yields the loops of edges that have areas on their left, each around one face of what is on their right: clockwise if that is enclosed.

    `is_left` takes the faces on the left. A loop begins anywhere, and ends when it is there again.
    """
    behind: dict[Position, list[Position]] = defaultdict(list)
    for (a, b), count in edges.items():
        behind[a] += [b] * count
    for first, ends in behind.items():
        while ends:
            ring, before, at = [first], first, ends.pop()
            while at != first:
                ring.append(at)
                following = next_of(before, at, behind[at], is_left)
                before, at = at, following
            yield ring


def next_of(before: Position, at: Position, ends: list[Position], is_left: bool) -> Position:
    """Takes the end of the next edge on the way around a face that is on the right: the first one counterclockwise from where the way came.

    It is the last one if the face is on the left.
    """
    back = before[0] - at[0], before[1] - at[1]

    def compare(one: Position, other: Position) -> int:
        return turn(back, off(one, at), off(other, at))

    found = (max if is_left else min)(ends, key=functools.cmp_to_key(compare))
    ends.remove(found)
    return found


def off(one: Position, other: Position) -> Position:
    """Returns the direction from the second position to the first."""
    return one[0] - other[0], one[1] - other[1]


def turn(back: Position, one: Position, other: Position) -> int:
    """Compares two directions by their angles counterclockwise from a third one, which itself comes last."""
    ranks = [quarter(back, it) for it in (one, other)]
    return ranks[0] - ranks[1] or -sign(cross(one, other))


def quarter(back: Position, it: Position) -> int:
    """Returns whether the angle from a direction is below half a turn, half a turn, above, or a whole one: 0 to 3."""
    side = cross(back, it)
    if side:
        return 0 if side > 0 else 2
    return 1 if back[0] * it[0] + back[1] * it[1] < 0 else 3


def cross(one: Position, other: Position) -> int:
    """Returns the cross product of two directions."""
    return one[0] * other[1] - one[1] * other[0]


def sign(number: int) -> int:
    """Returns 1, 0 or -1."""
    return (number > 0) - (number < 0)


def enclosed(rings: Iterable[Sequence[Position]]) -> Iterator[Ring]:
    """Yields the outer ring of each part of the plane that areas enclose and none covers, counterclockwise. Their borders have to have the same vertices."""
    for ring in loops(outer_edges(rings)):
        if doubled_area(ring) < 0:
            yield ring[::-1]


def text_of(ring: Sequence[Position]) -> str:
    """Returns the text of the polygon within a ring."""
    return f"POLYGON(({','.join(f'{x} {y}' for x, y in [*ring, ring[0]])}))"
