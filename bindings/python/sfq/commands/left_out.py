"""The records that an import leaves out: how left-out.csv describes them, and what a query has to say of them. None of it is proved."""
from __future__ import annotations

import csv
import io
import itertools
import math
import os
import re
import sys
from fractions import Fraction
from typing import IO, Any, Iterable, Iterator, NamedTuple, Optional, Sequence

from ..geometry import grids
from ..geometry.counts import number_of
from ..layers import reading
from . import exports, units
from .endings import DATA, Stopped

# The columns of left-out.csv behind those that say which record it is and why: how many positions it has, where the fault is, and its
# envelope, all in the coordinates of the source. A field is empty where nothing is known.
COLUMNS = ["positions", "x", "y", "least_x", "least_y", "greatest_x", "greatest_y"]
DONE = "left out"
# What a reason ends with where rounding made the fault.
BROKEN = "; valid in the source, broken by the grid"
# Where a reason says where the fault is, in steps of the grid.
AT = re.compile(r"\b(?:share|at|from) (-?\d+(?:/\d+)?) (-?\d+(?:/\d+)?)(?= to |;|$)")
PLACES = re.compile(r"\b(share|at|from|around) (-?\d+(?:/\d+)?) (-?\d+(?:/\d+)?)(?: to (-?\d+(?:/\d+)?) (-?\d+(?:/\d+)?))?$")
NUMBER = re.compile(r"-?\d+")
# A point at the end of a line of CSV, and about how many bytes of a table are read at once.
LAST_POINT = re.compile(rb",POINT\((-?[0-9]+) (-?[0-9]+)\)$", re.M)
AT_ONCE = 1 << 20
# How many records are named.
NAMED = 3

# The least x, the least y, the greatest x and the greatest y.
Box = tuple[float, float, float, float]


# ---- what an import writes ----


def place(reason: str, grid: grids.Grid) -> Optional[tuple[str, str]]:
    """Returns where a reason says that the fault is, in the coordinates of the source."""
    found = AT.search(reason)
    if not found:
        return None
    x, y = (spelled(axis, Fraction(text)) for axis, text in zip((grid.x, grid.y), found.groups()))
    return x, y


def with_places(line: str, grid: grids.Grid) -> str:
    """Returns a line of `sfq why` with the place at its end in the coordinates of the source behind it."""
    found = PLACES.search(line)
    if not found:
        return line
    word, x, y, right, high = found.groups()
    places = [f"{spelled(grid.x, Fraction(it))} {spelled(grid.y, Fraction(other))}" for it, other in ((x, y), (right, high)) if it]
    return f"{line}; in the source {'at' if word == 'share' else word} {' to '.join(places)}"


def spelled(axis: grids.Axis, at: Fraction) -> str:
    """Returns a place on an axis in the coordinates of the source: exactly where it is a whole step."""
    return axis.text(int(at)) if at.denominator == 1 else repr(float(axis.origin + at * axis.step))


def positions(geometry: Any) -> int:
    """Returns how many positions a geometry of GDAL has."""
    count = geometry.GetGeometryCount()
    return sum(positions(geometry.GetGeometryRef(it)) for it in range(count)) if count else int(geometry.GetPointCount())


def described(modules: reading.Modules, sources: Sequence[Optional[tuple[bytes, Any]]], reason: str, grid: grids.Grid) -> list[str]:
    """Returns what left-out.csv says of the geometries of a record behind its reason. `sources` has each as well-known binary, with its bounds."""
    known = [it for it in sources if it]
    shapes = [modules.ogr.CreateGeometryFromWkb(data) for data, _ in known]
    bounds = [it for (_, it), shape in zip(known, shapes) if shape and not shape.IsEmpty() and all(map(math.isfinite, it))]
    found = [str(sum(positions(it) for it in shapes if it))] if known else [""]
    found += place(reason, grid) or ("", "")
    if bounds:
        left, right, low, high = zip(*bounds)
        found += [repr(it) for it in (min(left), min(low), max(right), max(high))]
    return found + [""] * (len(COLUMNS) - len(found))


# ---- what a query reads ----


class LeftOut(NamedTuple):
    """A record that isn't in its table: its FID, how many positions it has, and its envelope, None where none is known."""

    fid: str
    positions: int
    box: Optional[Box]
    # The code of the fault.
    code: str = ""

    @property
    def name(self) -> str:
        """What it is called."""
        return f"fid {self.fid}" + (f" ({number_of(self.positions, 'position')})" if self.positions else "")


def read(folder: str) -> dict[str, list[LeftOut]]:
    """Returns the records that are left out of each table of a folder, by its name in lower case, the largest first."""
    path, found = f"{folder}/left-out.csv", dict[tuple[str, str], LeftOut]()
    if not os.path.isfile(path):
        return {}
    csv.field_size_limit(sys.maxsize)
    with open(path, newline="", encoding="utf-8", errors="replace") as file:
        for row in csv.DictReader(file):
            if row.get("done") == DONE:
                found[(row.get("table") or "").lower(), row.get("record") or ""] = record_of(row)
    tables: dict[str, list[LeftOut]] = {}
    for (table, _), it in sorted(found.items(), key=lambda both: -both[1].positions):
        tables.setdefault(table, []).append(it)
    return tables


def record_of(row: dict[str, Any]) -> LeftOut:
    """Returns the record of a line, which an older import may have written, or somebody's hand."""
    try:
        left, low, right, high = (float(row[it]) for it in COLUMNS[3:])
        box: Optional[Box] = (left, low, right, high)
    except (KeyError, TypeError, ValueError):
        box = None
    count = row.get("positions") or ""
    return LeftOut(row.get("fid") or "", int(count) if count.isdecimal() else 0, box, (row.get("reason") or "")[:2])


def named(records: Sequence[LeftOut]) -> str:
    """Returns the names of the first of some records."""
    return ", ".join(it.name for it in records[:NAMED]) + (" .." if len(records) > NAMED else "")


def subject(count: int) -> str:
    """Returns the subject of what is said of so many records."""
    return number_of(count, "record is left out", "records are left out")


def notes(folder: units.Folder, layers: Iterable[units.Layer]) -> Iterator[str]:
    """Returns a line for each table of a query that lacks records."""
    found = read(folder.path)
    for it in dict.fromkeys(str(layer.said["table"]) for layer in layers):
        records = found.get(it.lower(), [])
        if records:
            largest = "" if len(records) == 1 else "the largest "
            yield f"{it}: {subject(len(records))}: {largest}{named(records)}; {folder.path}/left-out.csv says why"


def need_whole(folder: units.Folder, layers: dict[str, units.Layer]) -> None:
    """Stopped where a join may lack rows: the envelope of a record that is left out of one table meets a row of the other, or a record that that lacks."""
    found = read(folder.path) if len(layers) > 1 else {}
    for (_, one), (_, other) in itertools.permutations(layers.items(), 2):
        table, second = str(one.said["table"]), str(other.said["table"])
        records = found.get(table.lower(), [])
        meeting = met(records, folder, other, found.get(second.lower(), []) if second != table else [])
        if meeting:
            whose = "other rows of it" if second == table else f"rows of {second}"
            raise Stopped(
                f"the join may lack rows: {subject(len(meeting))} of {table} whose envelope{'s' * (len(meeting) > 1)} "
                f"meet{'s' * (len(meeting) == 1)} {whose}: {named(meeting)}; {folder.path}/left-out.csv says why, and --lenient asks all the same{advice(meeting)}", DATA)


def advice(records: Sequence[LeftOut]) -> str:
    """Returns which option of an import keeps some of these records, nothing where none does."""
    large, invalid = sum(it.code == "W4" for it in records), sum(it.code[:1] == "V" for it in records)
    return (f"; --part splits {large:,} of them into rows" if large else "") + (f"; --invalid mend mends what isn't valid, {invalid:,} of them" if invalid else "")


def met(records: Sequence[LeftOut], folder: units.Folder, other: units.Layer, more: Sequence[LeftOut]) -> list[LeftOut]:
    """Returns the records whose envelopes meet a row of a table, or one of the further records."""
    left = {number: on_grid(it.box, folder.grid) for number, it in enumerate(records) if it.box}
    found: set[int] = set()
    others = (on_grid(it.box, folder.grid) for it in more if it.box)
    for box in itertools.chain(others, boxes(folder, other)) if left else ():
        here = [number for number, it in left.items() if it[0] <= box[2] and box[0] <= it[2] and it[1] <= box[3] and box[1] <= it[3]]
        for number in here:
            found.add(number)
            del left[number]
        if not left:
            break
    return [it for number, it in enumerate(records) if number in found]


def on_grid(box: Box, grid: grids.Grid) -> Box:
    """Returns an envelope in steps of the grid, which no position of it leaves when it is rounded."""
    (left, right), (low, high) = (
        sorted(float((Fraction(it) - axis.origin) / axis.step) for it in both) for axis, both in ((grid.x, box[0::2]), (grid.y, box[1::2])))
    return math.floor(left), math.floor(low), math.ceil(right), math.ceil(high)


def boxes(folder: units.Folder, layer: units.Layer) -> Iterator[Box]:
    """Yields the envelope of each geometry in a table, in steps of the grid."""
    places = {it["name"] for it in layer.said["columns"] if it["type"] in exports.GEOMETRIC}
    csv.field_size_limit(sys.maxsize)
    with open(f"{folder.path}/{layer.said['table']}.csv", "rb") as file:
        header: list[str] = next(csv.reader([file.readline().decode("utf-8", "replace")]), [])
        columns = [at for at, it in enumerate(header) if it in places]
        left = b""
        if columns == [len(header) - 1]:
            for left in lines_of(file):
                points = LAST_POINT.findall(left)
                if b'"' in left or b"\r" in left or len(points) != left.count(b"\n"):
                    break
                yield from ((x, y, x, y) for x, y in ((int(x), int(y)) for x, y in points))
                left = b""
        yield from boxes_in(csv.reader(itertools.chain(text_of(io.BytesIO(left)), text_of(file))), columns)


def lines_of(file: IO[bytes]) -> Iterator[bytes]:
    """Yields whole lines of a file, many at once."""
    while found := file.read(AT_ONCE):
        yield found + file.readline()


def text_of(file: IO[bytes]) -> io.TextIOWrapper:
    """Returns the text of the rest of a file, for a reader of CSV."""
    return io.TextIOWrapper(file, encoding="utf-8", errors="replace", newline="")


def boxes_in(rows: Iterator[list[str]], columns: Sequence[int]) -> Iterator[Box]:
    """Yields the envelopes of the geometries in some columns of rows."""
    for row in rows:
        for at in columns:
            text = row[at] if at < len(row) else ""
            if text.startswith("POINT("):
                x, _, y = text[6:-1].partition(" ")
                yield int(x), int(y), int(x), int(y)
                continue
            numbers = list(map(int, NUMBER.findall(text)))
            if numbers:
                yield min(numbers[0::2]), min(numbers[1::2]), max(numbers[0::2]), max(numbers[1::2])
