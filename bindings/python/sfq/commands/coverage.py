"""Whether a table of areas is a coverage: no two interiors meet, and borders that run along each other have the same vertices.

Each two areas whose envelopes meet are asked for their matrix, which is proved, and so is where a vertex lies of another area. What is
enclosed and not covered is found by exact sums over edges; each gap is then related with its neighbours. None of the rest is proved.
"""
from __future__ import annotations

import csv
import itertools
import re
import sys
from collections import defaultdict
from fractions import Fraction
from typing import Iterator, NamedTuple, Optional, Sequence

from ..geometry import covering
from ..geometry.counts import number_of
from ..geometry.shapes import Geometry, Index, relate_many
from ..tables import near_names
from . import exports, left_out, units
from .asking import Answer
from .endings import USAGE, Stopped
from .progress import Progress

HEADERS = ["fault", "row", "other", "vertices", "area", "x", "y", "geom"]
TYPES = ["TEXT", "TEXT", "TEXT", "INTEGER", "REAL", "REAL", "REAL", "GEOMETRY"]
OVERLAP, BORDER, GAP = "overlap", "border", "gap"
# How many pairs are asked at once.
AT_ONCE = 2_000
# Where two interiors meet, as the library shows it.
AROUND = re.compile(r"(-?\d+(?:/\d+)?) (-?\d+(?:/\d+)?)\Z")


class Area(NamedTuple):
    """A row of the table: its key, its geometry, its envelope, and its rings with the area on their left."""

    key: str
    shape: Geometry
    box: tuple[int, int, int, int]
    rings: list[covering.Ring]


class Fault(NamedTuple):
    """Why a table isn't a coverage, or a gap in it: the keys, how many vertices, twice the area in steps, a place, and a geometry on the grid."""

    kind: str
    row: str
    other: str
    vertices: Optional[int]
    area: Optional[int]
    place: tuple[Fraction, Fraction]
    text: str


class Found(NamedTuple):
    """What was found: how many areas and pairs of them, the faults, and how many enclosed parts couldn't be verified as gaps."""

    areas: int
    pairs: int
    faults: list[Fault]
    unverified: int

    def count(self, kind: str) -> int:
        """Returns how many faults there are of a kind."""
        return sum(it.kind == kind for it in self.faults)

    @property
    def is_coverage(self) -> bool:
        """Whether it is a coverage, in which gaps may be."""
        return not self.count(OVERLAP) and not self.count(BORDER)

    def line(self, name: str) -> str:
        """Returns what is said of it."""
        counts = ", ".join(number_of(self.count(it), it) for it in (OVERLAP, BORDER, GAP))
        more = f", and {number_of(self.unverified, 'enclosed part')} not verified as a gap" if self.unverified else ""
        return f"{name}: {number_of(self.areas, 'area')}, {number_of(self.pairs, 'pair that meets', 'pairs that meet')}: {counts}{more}; it {'is' if self.is_coverage else 'is not'} a coverage"


# ---- the table ----


def layer_named(folder: units.Folder, name: str) -> units.Layer:
    """Returns the table of a name, which may be that of its layer. Stopped where there is none."""
    for it in folder.layers.values():
        if name.lower() == str(it.said["table"]).lower() or name == it.said["layer"]:
            return it
    raise Stopped(near_names.said(f"there is no layer {name}", name, [str(it.said["table"]) for it in folder.layers.values()]), USAGE)


def areas_of(folder: units.Folder, layer: units.Layer) -> Iterator[Area]:
    """Yields the areas of a table. Stopped where a row has a geometry that is none."""
    # A record that is several rows is called by its own key.
    table, key = str(layer.said["table"]), str(layer.said["parted"]["whole"] if layer.has_parts else layer.said["key"])
    shapes = [str(it["name"]) for it in layer.said["columns"] if it["type"] in exports.GEOMETRIC]
    if not shapes:
        raise Stopped(f"{table} has no geometries", USAGE)
    csv.field_size_limit(sys.maxsize)
    with open(f"{folder.path}/{table}.csv", newline="", encoding="utf-8") as file:
        for row in csv.DictReader(file):
            text = row[shapes[0]]
            if not text or text.endswith("EMPTY"):
                continue
            rings = covering.rings_of(text)
            if not rings:
                raise Stopped(f"{table} {row[key]} is a {text.partition('(')[0]}: a coverage has polygons alone", USAGE)
            xs, ys = zip(*itertools.chain(*rings))
            yield Area(row[key], Geometry(text), (min(xs), min(ys), max(xs), max(ys)), rings)


# ---- what is wrong ----


def pairs_of(areas: Sequence[Area]) -> Iterator[tuple[int, int]]:
    """Yields each two areas whose envelopes meet."""
    with Index([it.box for it in areas]) as index:
        for at, it in enumerate(areas):
            yield from ((at, other) for other in index.search(it.box) if other > at)


def batches(pairs: Iterator[tuple[int, int]]) -> Iterator[list[tuple[int, int]]]:
    """Yields pairs, many at a time."""
    while batch := list(itertools.islice(pairs, AT_ONCE)):
        yield batch


def overlap(one: Area, other: Area) -> Fault:
    """Returns the fault of two areas whose interiors meet."""
    shown = AROUND.search(one.shape.why(other.shape)[0].shown)
    x, y = (Fraction(it) for it in (shown.groups() if shown else ("0", "0")))
    return Fault(OVERLAP, one.key, other.key, None, None, (x, y), f"POINT({round(x)} {round(y)})")


def unmatched(one: Area, other: Area) -> list[covering.Position]:
    """Returns the vertices of an area that are on the border of another, and no vertices of that."""
    left, low, right, high = other.box
    known = set(itertools.chain(*other.rings))
    near = [it for ring in one.rings for it in ring if left <= it[0] <= right and low <= it[1] <= high and it not in known]
    return [it for it, place in zip(near, other.shape.locate_many(near)) if place == 1] if near else []


def gaps(areas: Sequence[Area], inserted: dict[int, set[covering.Position]]) -> tuple[list[Fault], int]:
    """Returns what areas enclose and none covers, and how many such parts aren't verified, as other areas are in them or overlap beside them.

    A part whose corners are where edges cross isn't found: two areas overlap there.
    """
    rings = (covering.split(ring, inserted[at]) if inserted.get(at) else ring for at, it in enumerate(areas) for ring in it.rings)
    found, unverified = [], 0
    with Index([it.box for it in areas]) as index:
        for ring in covering.enclosed(rings):
            xs, ys = zip(*ring)
            near = [areas[it] for it in index.search((min(xs), min(ys), max(xs), max(ys)))]
            shape = Geometry(covering.text_of(ring))
            matrices = relate_many([it.shape for it in near], shape) if shape.is_valid else ["2"]
            if any(it[0] != "F" for it in matrices):
                unverified += 1
                continue
            keys = [it.key for it, matrix in zip(near, matrices) if matrix[4] == "1"]
            place = Fraction(ring[0][0]), Fraction(ring[0][1])
            found.append(Fault(GAP, " ".join(keys), "", None, covering.doubled_area(ring), place, covering.text_of(ring)))
    return found, unverified


def check(areas: Sequence[Area], progress: Progress) -> Found:
    """Looks for all that keeps areas from being a coverage, and for gaps."""
    faults: list[Fault] = []
    inserted: dict[int, set[covering.Position]] = defaultdict(set)
    count = 0
    for batch in batches(pairs_of(areas)):
        progress.show(f"{batch[0][0]:,} of {len(areas):,} areas")
        matrices = relate_many([areas[it].shape for it, _ in batch], [areas[it].shape for _, it in batch])
        for (one, other), matrix in zip(batch, matrices):
            if matrix[0] == matrix[4] == "F":
                continue
            count += 1
            if matrix[0] != "F":
                faults.append(overlap(areas[one], areas[other]))
            here = {it: unmatched(areas[it], areas[another]) for it, another in ((one, other), (other, one))}
            inserted[other].update(here[one])
            inserted[one].update(here[other])
            lone = sorted({*here[one], *here[other]})
            if lone and matrix[0] == "F":
                place = Fraction(lone[0][0]), Fraction(lone[0][1])
                text = f"MULTIPOINT(({'),('.join(f'{x} {y}' for x, y in lone)}))"
                faults.append(Fault(BORDER, areas[one].key, areas[other].key, len(lone), None, place, text))
    enclosed, unverified = gaps(areas, inserted)
    return Found(len(areas), count, faults + enclosed, unverified)


# ---- the answer ----


def fields(fault: Fault, folder: units.Folder) -> list[str]:
    """Returns a row of the answer, whose geometry is on the grid."""
    x, y = (left_out.spelled(axis, at) for axis, at in zip((folder.grid.x, folder.grid.y), fault.place))
    area = "" if fault.area is None else repr(float(Fraction(fault.area, 2) * folder.grid.x.step * folder.grid.y.step))
    vertices = "" if fault.vertices is None else str(fault.vertices)
    return [fault.kind, fault.row, fault.other, vertices, area, x, y, fault.text]


def returned(found: Found, folder: units.Folder, layer: units.Layer) -> units.Returned:
    """Returns the faults as an answer in the coordinates of the source."""
    answer = Answer(HEADERS, TYPES, (fields(it, folder) for it in found.faults), False)
    columns = [units.Column(it, str) for it in TYPES[:-1]]
    return units.Returned(answer, [*columns, units.Column(TYPES[-1], folder.text, layer.system)], folder.grid)
