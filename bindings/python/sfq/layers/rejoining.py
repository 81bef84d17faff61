"""Geometries that an import cut into parts, put together again: the whole on the grid, of any size. None of it is proved.

The parts of an area are on both sides of each cut. So in the sum of their directed borders, each with the area on its left, what is on a
cut cancels out, and the border of the whole is left. Lines that were cut end twice where they were, which is no end (06-103r4, 6.1.6.1).
"""
from __future__ import annotations

import ctypes
import functools
import itertools
import math
from collections import Counter, defaultdict
from typing import Any, Iterable, Iterator, Sequence

from ..geometry import covering, exact, library, texts
from ..geometry.binary import Numbers, Shape
from ..geometry.covering import Edge, Ring
from . import touching

# From how many edges on those that meet a window are looked up in an index.
MANY = 64


class NotWhole(ValueError):
    """Some geometries aren't the parts of one."""


# ---- the border of parts ----


def line_of(edge: Edge) -> tuple[tuple[int, int, int], int]:
    """Returns the line that an edge is on, by the least steps along it and its offset, and 1 or -1 by the edge's direction."""
    (ax, ay), (bx, by) = edge
    dx, dy = bx - ax, by - ay
    most = math.gcd(dx, dy)
    sign = 1 if (dx, dy) > (0, 0) else -1
    dx, dy = sign * dx // most, sign * dy // most
    return (dx, dy, dx * ay - dy * ax), sign


def summed(edges: Sequence[tuple[Edge, int]]) -> Iterator[Edge]:
    """Yields the sum of directed edges on one line, each with the sign of its direction. NotWhole where some run twice in one direction."""
    ends: Counter[covering.Position] = Counter()
    for (a, b), sign in edges:
        # Those of both directions begin at their lesser ends.
        low, high = sorted((a, b))
        ends[low] += sign
        ends[high] -= sign
    places, level = sorted(ends), 0
    for low, high in zip(places, places[1:]):
        level += ends[low]
        if abs(level) > 1:
            raise NotWhole("parts overlap")
        if level:
            yield (low, high) if level > 0 else (high, low)


def border(rings: Iterable[Ring]) -> Counter[Edge]:
    """Returns the directed border of areas that share no interior point, by their rings without the last positions. NotWhole of others."""
    lines: dict[Any, list[tuple[Edge, int]]] = defaultdict(list)
    for edge, count in covering.outer_edges(rings).items():
        line, sign = line_of(edge)
        lines[line] += [(edge, sign)] * count
    found: Counter[Edge] = Counter()
    for its in lines.values():
        found.update([it for it, _ in its] if len(its) == 1 else summed(its))
    return found


def walks(edges: Counter[Edge]) -> Iterator[Ring]:
    """Yields closed ways along directed edges, each of which is on one of them. NotWhole where they don't close."""
    behind: dict[covering.Position, list[covering.Position]] = defaultdict(list)
    for (a, b), count in edges.items():
        behind[a] += [b] * count
    for first, ends in behind.items():
        while ends:
            found, at = [first], ends.pop()
            while at != first:
                found.append(at)
                if not behind.get(at):
                    raise NotWhole("a border doesn't close")
                at = behind[at].pop()
            yield [*found, first]


# ---- the whole ----


class Whole(exact.Figure):
    """A geometry by the texts of its parts, with an index of its edges."""

    def __init__(self, parts: Sequence[str]) -> None:
        """Joins parts. NotWhole where they aren't those of one geometry."""
        given = [texts.coordinates(it) for it in parts]
        names = {name.removeprefix("Multi") for name, _ in given}
        if len(names) != 1:
            raise NotWhole("parts are of different dimensions")
        name = names.pop()
        super().__init__(Shape(name.upper(), elements(name, given)), 1)
        self.parts, self.kind = parts, name
        if self.dimension == 2:
            for walk in walks(self.border):
                # Each has the area on its left, whichever way around it goes.
                self.add(walk, is_hole=exact.doubled_area(walk) <= 0)

    @functools.cached_property
    def border(self) -> Counter[Edge]:
        """The directed border of an area."""
        return border(itertools.chain.from_iterable(map(covering.rings_of, self.parts)))

    @functools.cached_property
    def index(self) -> library.KeptIndex:
        """An index of the edges by their bounds."""
        bounds = [it for edge in self.edges for it in edge[:4]]
        return library.KeptIndex((ctypes.c_int32 * len(bounds))(*bounds), len(self.edges))

    def meeting(self, left: Any, right: Any, low: Any, high: Any) -> list[exact.Edge]:
        """Returns the edges whose bounds share a point with these whole numbers."""
        if len(self.edges) < MANY:
            return super().meeting(left, right, low, high)
        return [self.edges[it] for it in self.index.search((ctypes.c_int32 * 4)(left, right, low, high))]


def figure(text: str) -> exact.Figure:
    """Returns the figure of a valid geometry on the grid."""
    name, parts = texts.coordinates(text)
    word = name.upper()
    if word == "POLYGON" or word == "MULTIPOLYGON":
        areas = [parts] if word == "POLYGON" and len(parts) else parts
        rings: list[list[Numbers]] = [[list(itertools.chain(*ring)) for ring in area] for area in areas]
        return exact.Figure(Shape(word, rings), 1)
    return exact.Figure(Shape(word, elements(name.removeprefix("Multi"), [(name, parts)])), 1)


def elements(name: str, given: Sequence[tuple[str, Any]]) -> list[list[Numbers]]:
    """Returns the points or lines of texts as a Shape has them; none of areas."""
    if name == "Polygon":
        return []
    found: list[list[Numbers]] = []
    for kind, parts in given:
        its = [parts] if len(parts) and not kind.startswith("Multi") else parts
        found += [[[number for position in ([it] if name == "Point" else it) for number in position]] for it in its]
    return found


# ---- its text ----


def simple(loop: Ring) -> Iterator[Ring]:
    """Yields the simple rings of a closed way that touches itself in vertices, all without their last positions."""
    found: list[covering.Position] = []
    place: dict[covering.Position, int] = {}
    for it in [*loop, loop[0]]:
        if it in place:
            ring = found[place[it]:]
            del found[place[it]:]
            for gone in ring:
                del place[gone]
            yield ring
        place[it] = len(found)
        found.append(it)


def around(ring: Ring) -> tuple[int, int, int, int]:
    """Returns the envelope of a ring."""
    xs, ys = zip(*ring)
    return min(xs), min(ys), max(xs), max(ys)


def text_of(whole: Whole) -> str:
    """Returns the text of a whole, which sfq refuses if it is too large or its rings touch. NotWhole where the parts aren't those of one area."""
    if whole.dimension < 2:
        its = [texts.coordinates(it) for it in whole.parts]
        lists = [part for name, parts in its for part in (parts if name.startswith("Multi") else [parts])]
        return texts.spelled(f"Multi{whole.kind}", lists)
    rings = [ring for loop in covering.loops(whole.border, is_left=True) for ring in simple(loop)]
    shells = sorted((it for it in rings if covering.doubled_area(it) > 0), key=covering.doubled_area)
    areas, boxes = [[[*it, it[0]]] for it in shells], [around(it) for it in shells]
    for hole in (it for it in rings if covering.doubled_area(it) < 0):
        left, low, right, high = around(hole)
        closed = [*hole, hole[0]]
        at = next((at for at, it in enumerate(boxes) if it[0] <= left and it[1] <= low and it[2] >= right and it[3] >= high
                   and touching.is_inside(closed, areas[at][0])), None)
        if at is None:
            raise NotWhole("a hole is in no area")
        areas[at].append(closed)
    return texts.spelled("Polygon", areas[0]) if len(areas) == 1 else texts.spelled("MultiPolygon", areas)
