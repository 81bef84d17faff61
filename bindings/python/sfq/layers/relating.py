"""What rounding did to relations: which pairs of geometries have another exact relation on the grid than in the source.

The pairs are those whose boxes meet on the grid: rounding keeps the order of numbers, so no others can meet before or after. Nothing is
computed of areas that meet in the same way wherever their vertices are within half a step (`steady`). Else the relation on the grid is the
one that the library proves. GEOS is asked if the geometries of the source have it too. If it says no, the relation of the source is
computed exactly, from its doubles. None of it is proved.
"""
from __future__ import annotations

import contextlib
from array import array
from collections import Counter
from typing import Any, Callable, Iterator, NamedTuple, Optional, Sequence

from ..geometry import binary, exact, grids
from ..geometry.counts import number_of
from . import meeting, steady, workers

# How many pairs are asked at once, of how many it is found at once whether they are steady, and from how many pairs on several processes
# compare them.
AT_ONCE, STEADY, SHARED = 500, 4_000, 4_000
# From how many pairs on it is worth while to find those that are steady.
MANY = 500
# How many pairs of a change a line names.
NAMED = 3
# How many pairs of one table, or of two, are compared at most, and how many more for each row: where everything meets everything there are
# as many as the square of the rows.
MOST_PAIRS, MORE_PAIRS = 100_000, 10


class Member:
    """A geometry of a table that has the same form in the source and on the grid: what a message calls it, its well-known binary in the
    source, and what is asked on the grid. It has the boxes of both."""

    __slots__ = ("key", "binary", "asked", "source", "box", "geos", "is_valid", "found_dimension")

    def __init__(
        self, key: Any, given: bytes, asked: Any, source: meeting.Box, grid: grids.Grid, box: Optional[tuple[int, int, int, int]] = None,
    ) -> None:
        """`box` is the one on the grid, where it is known."""
        self.key, self.binary, self.asked, self.source = key, given, asked, source
        if box is None:
            left, low, right, high = grid.steps((source[0], source[2], source[1], source[3]))
            box = left, right, low, high
        self.box = box
        # The geometry of GEOS, and whether it is valid, both found when they are first asked.
        self.geos: Any = None
        self.is_valid: Optional[bool] = None
        self.found_dimension = -1

    @property
    def dimension(self) -> int:
        """The dimension of its type, found when it is first asked."""
        if self.found_dimension < 0:
            self.found_dimension = (binary.kind(self.binary) - 1) % 3
        return self.found_dimension


class Change(NamedTuple):
    """A pair with another relation on the grid than in the source, and a point of the source that shows the greater one: where both
    geometries meet, or their interiors."""

    key: Any
    other: Any
    before: str
    after: str
    x: float
    y: float


class Kind(NamedTuple):
    """A change of relations, and whether it is one of two areas."""

    before: str
    after: str
    is_of_areas: bool

    @property
    def is_narrow(self) -> bool:
        """Whether what changed was no wider than a step: a gap, or what two areas shared."""
        return self.before == exact.DISJOINT or (self.is_of_areas and self.before == exact.OVERLAPS and rank(self.after) < 2)

    @property
    def closes(self) -> bool:
        """Whether a gap, or a sliver of two areas, was closed."""
        return self.after == exact.TOUCHES and self.is_narrow


class Found:
    """What was found of the pairs of one table, or of two."""

    def __init__(self) -> None:
        # The pairs that meet in the source or on the grid, and those of which one geometry isn't valid in the source.
        self.meeting, self.unknown = 0, 0
        # How many pairs are compared, where there are more.
        self.most: Optional[int] = None
        self.changes: list[Change] = []
        # How often each change is one of two areas or of others, with the first ones.
        self.counts: Counter[Kind] = Counter()
        self.firsts: dict[Kind, list[Change]] = {}

    def join(self, other: Found) -> None:
        """Takes what was found of further pairs."""
        self.meeting, self.unknown = self.meeting + other.meeting, self.unknown + other.unknown
        self.changes += other.changes
        self.counts.update(other.counts)
        for kind, its in other.firsts.items():
            self.firsts[kind] = [*self.firsts.get(kind, []), *its][:NAMED]

    def add(self, change: Change, is_of_areas: bool) -> None:
        """Takes a change."""
        before, after = change.before, change.after
        if {before, after} != {exact.WITHIN, exact.CONTAINS}:
            # A pair has one relation whichever of the two comes first.
            before, after = (exact.WITHIN if it == exact.CONTAINS else it for it in (before, after))
        kind = Kind(before, after, is_of_areas)
        self.changes.append(change)
        self.counts[kind] += 1
        if self.counts[kind] <= NAMED:
            self.firsts.setdefault(kind, []).append(change)


class Geos:
    """What GEOS says of geometries by the calls of GDAL's Python or shapely's."""

    def __init__(self, read: Callable[[bytes], Any], calls: dict[str, Callable[[Any, Any], Any]], valid: Callable[[Any], Any]) -> None:
        """`calls` has the call of each relation by its name; `read` makes a geometry of well-known binary."""
        self.read, self.calls, self.valid = read, calls, valid

    def geometry(self, member: Member) -> Any:
        """Returns the geometry of GEOS."""
        if member.geos is None:
            member.geos = self.read(member.binary)
        return member.geos

    def holds(self, name: str, one: Member, other: Member) -> bool:
        """Whether GEOS says that a relation holds; False where it fails."""
        first, second = self.geometry(one), self.geometry(other)
        try:
            found = bool(self.calls[name](first, second))
            return found and not (name in exact.TURNED and self.calls[exact.EQUALS](first, second))
        # GDAL and each version of shapely have exceptions of their own.
        except Exception:
            return False

    def is_valid(self, member: Member) -> bool:
        """Whether GEOS says that a geometry is valid."""
        if member.is_valid is None:
            try:
                member.is_valid = bool(self.valid(self.geometry(member)))
            except Exception:
                member.is_valid = False
        return member.is_valid


def of_gdal(modules: Any) -> Geos:
    """Returns GEOS as GDAL calls it."""
    geometry = modules.ogr.Geometry
    return Geos(modules.ogr.CreateGeometryFromWkb, {it: getattr(geometry, it.capitalize()) for it in exact.NAMES}, geometry.IsValid)


def of_shapely() -> Geos:
    """Returns GEOS as shapely calls it."""
    from shapely import wkb

    def call(name: str) -> Callable[[Any, Any], Any]:
        return lambda one, other: getattr(one, name)(other)

    return Geos(wkb.loads, {it: call(it) for it in exact.NAMES}, lambda it: it.is_valid)


@contextlib.contextmanager
def quiet(modules: Any) -> Iterator[None]:
    """Has GDAL not say what GEOS fails at."""
    modules.gdal.PushErrorHandler("CPLQuietErrorHandler")
    try:
        yield
    finally:
        modules.gdal.PopErrorHandler()


class Comparison:
    """Compares the relations of pairs before and after rounding."""

    def __init__(
        self, grid: grids.Grid, geos: Geos, ask: Callable[[list[tuple[Any, Any]]], list[str]], show: Callable[[int, int], None],
        maker: meeting.Maker = meeting.LibraryTree, processes: int = 1,
    ) -> None:
        """`ask` returns the matrices of pairs on the grid. `show` is called with how many members of the first table are done, and of how
        many."""
        self.grid, self.geos, self.ask, self.maker, self.workers = grid, geos, ask, maker, processes
        self.say, self.total = show, 0

    def begin(self, total: int) -> None:
        """Begins to count members that are done."""
        self.total = total

    def show(self, done: int) -> None:
        """Shows how many members are done."""
        self.say(done, self.total)

    def run(self, first: Sequence[Member], second: Optional[Sequence[Member]] = None) -> Found:
        """Compares all pairs of two tables, or of one with itself where there is no second."""
        found, boxes = Found(), [it.box for it in first]
        met = meeting.pairs_within(boxes, self.maker) if second is None else meeting.pairs(boxes, [it.box for it in second], self.maker)
        others = first if second is None else second
        most, count, rows = MOST_PAIRS + MORE_PAIRS * (len(first) + len(others)), 0, []
        for at, places in met:
            if count + len(places) > most:
                found.most = count
                break
            count += len(places)
            rows.append((at, places))
        self.begin(len(rows))
        outlines = self.outlines(first, others) if count >= MANY else None

        def work(part: Sequence[tuple[int, list[int]]], tell: Callable[[int], None]) -> Found:
            return self.of_rows(first, others, part, tell, outlines)

        if count < SHARED or self.workers < 2:
            parts = [work(rows, self.show)]
        else:
            size = -(-len(rows) // self.workers)
            parts = workers.shared([rows[at:at + size] for at in range(0, len(rows), size)], work, self.show)
        for it in parts:
            found.join(it)
        return found

    def outlines(self, first: Sequence[Member], others: Sequence[Member]) -> Optional[steady.Pairs]:
        """Returns what finds steady pairs of two tables, or of one; None without numpy."""
        if not steady.is_there():
            return None
        both = [steady.Outlines([it.binary for it in its], [it.box for it in its], self.grid) for its in ([first] if first is others else [first, others])]
        return steady.Pairs(both[0], both[-1])

    def unsteady(
        self, outlines: steady.Pairs, first: Sequence[Member], others: Sequence[Member], ones: list[int], twos: list[int],
    ) -> tuple[list[int], list[int]]:
        """Returns the pairs, by the places of both, whose relation has to be computed: the others meet, and rounding didn't change how."""
        import numpy

        firsts, seconds = (numpy.array(it, dtype=numpy.int64) for it in (ones, twos))
        found = outlines.steady(firsts, seconds)
        for its, members in ((firsts, first), (seconds, others)):
            places = numpy.unique(its[found])
            invalid = [it for it in places.tolist() if not self.geos.is_valid(members[it])]
            found &= ~numpy.isin(its, invalid)
        return firsts[~found].tolist(), seconds[~found].tolist()

    def of_rows(
        self, first: Sequence[Member], others: Sequence[Member], rows: Sequence[tuple[int, list[int]]], tell: Callable[[int], None],
        outlines: Optional[steady.Pairs] = None,
    ) -> Found:
        """Compares the pairs of some members of the first table, each with the places of those of the other. `tell` gets how many are done."""
        found = Found()
        ones: list[int] = []
        twos: list[int] = []
        batch: list[tuple[Member, Member]] = []
        for done, (at, places) in enumerate(rows, 1):
            ones += [at] * len(places)
            twos += places
            if len(ones) < STEADY and done < len(rows):
                continue
            if outlines:
                count = len(ones)
                ones, twos = self.unsteady(outlines, first, others, ones, twos)
                found.meeting += count - len(ones)
            for one, other in zip(ones, twos):
                batch.append((first[one], others[other]))
                if len(batch) == AT_ONCE:
                    self.compare(batch, found)
                    batch = []
            ones, twos = [], []
            tell(done)
        self.compare(batch, found)
        return found

    def compare(self, batch: list[tuple[Member, Member]], found: Found) -> None:
        """Compares some pairs."""
        for (one, other), matrix in zip(batch, self.ask([(one.asked, other.asked) for one, other in batch]) if batch else ()):
            after = exact.named(matrix, one.dimension, other.dimension)
            is_apart = not meet(one.source, other.source)
            found.meeting += after != exact.DISJOINT
            if is_apart and after == exact.DISJOINT or not is_apart and self.geos.holds(after, one, other):
                continue
            if not is_apart and not (self.geos.is_valid(one) and self.geos.is_valid(other)):
                found.unknown += 1
                continue
            shapes = binary.shape(one.binary), binary.shape(other.binary)
            before = exact.Relation(exact.DISJOINT) if is_apart else exact.related(*shapes)
            if before.name != after:
                found.meeting += after == exact.DISJOINT
                found.add(Change(one.key, other.key, before.name, after, *self.place(before, after, shapes)), one.dimension == other.dimension == 2)

    def place(self, before: exact.Relation, after: str, shapes: tuple[binary.Shape, binary.Shape]) -> tuple[float, float]:
        """Returns a point of the source that shows the relation before, or that on the grid where it is the greater one."""
        place = before.place
        if place is None or rank(after) > rank(before.name):
            place = exact.related(*(rounded(it, self.grid) for it in shapes)).place
            place = place and (self.grid.x.origin + place[0] * self.grid.x.step, self.grid.y.origin + place[1] * self.grid.y.step)
        x, y = place or (float("nan"), float("nan"))
        return float(x), float(y)


def rank(name: str) -> int:
    """Returns 0 for `disjoint`, 1 for `touches`, and 2 where interiors meet."""
    return 0 if name == exact.DISJOINT else 1 if name == exact.TOUCHES else 2


def meet(one: meeting.Box, other: meeting.Box) -> bool:
    """Whether two boxes share a point."""
    return bool(one[0] <= other[1] and one[1] >= other[0] and one[2] <= other[3] and one[3] >= other[2])


def rounded(shape: binary.Shape, grid: grids.Grid) -> binary.Shape:
    """Returns a geometry on the grid."""
    def whole(numbers: binary.Numbers) -> Any:
        return array("q", (it for position in grid.rounded(numbers, grids.Shift()) for it in position))

    return binary.Shape(shape.word, [[whole(it) for it in part] for part in shape.parts])


# ---- what is said ----

# What one pair did or does, and what several did or do.
BEFORE = {
    exact.DISJOINT: ("was apart", "were apart"), exact.TOUCHES: ("touched",) * 2, exact.EQUALS: ("was equal", "were equal"),
    exact.WITHIN: ("had one within the other",) * 2, exact.CONTAINS: ("had the second within the first",) * 2,
    exact.CROSSES: ("crossed",) * 2, exact.OVERLAPS: ("overlapped",) * 2,
}
AFTER = {
    exact.DISJOINT: ("is apart", "are apart"), exact.TOUCHES: ("touches", "touch"), exact.EQUALS: ("is equal", "are equal"),
    exact.WITHIN: ("has one within the other", "have one within the other"),
    exact.CONTAINS: ("has the second within the first", "have the second within the first"),
    exact.CROSSES: ("crosses", "cross"), exact.OVERLAPS: ("overlaps", "overlap"),
}

def line(found: Found) -> str:
    """Returns what rounding did to relations, in a sentence: the pairs of a change that closes nothing are named, each with a place."""
    unknown = f"; {found.unknown:,} more with a geometry that isn't valid in the source" if found.unknown else ""
    unknown += f"; only {found.most:,} of the pairs whose envelopes meet were compared" if found.most is not None else ""
    pairs = number_of(found.meeting, "pair that meets", "pairs that meet")
    if not found.changes:
        return f"rounding changed no relation of {pairs}{unknown}"
    kinds = sorted(found.counts.items(), key=lambda it: (not it[0].closes, -it[1], it[0]))
    said = "; ".join(part(kind, count, found.firsts[kind]) for kind, count in kinds)
    return f"rounding changed {len(found.changes):,} of {pairs}: {said}{unknown}"


def part(kind: Kind, count: int, firsts: list[Change]) -> str:
    """Returns what is said of the pairs of one change."""
    before, after = (words[it][count > 1] for words, it in ((BEFORE, kind.before), (AFTER, kind.after)))
    said = f"{count:,} {before}{' by at most a step' if kind.is_narrow else ''} and now {after}"
    if kind.closes:
        return said
    shown = ", ".join(f"{it.key} and {it.other} at {it.x!r} {it.y!r}" for it in firsts)
    return f"{said} ({shown}{', ..' if count > len(firsts) else ''})"
