"""What sfq-tiles has to write, by Python's own reading of records and of numbers. Tests compare its tiles and stretches with this."""
import csv
import re
from decimal import Decimal
from typing import Mapping, NamedTuple, Optional, Sequence

GRID = (-10_000_000, 10_000_000, -10_000_000, 10_000_000)
NUMBER = re.compile(r"[-+]?(?:\d+\.?\d*|\.\d+)")
# The least and the greatest x and y.
Envelope = tuple[int, int, int, int]
SIDES = ("least_x", "greatest_x", "least_y", "greatest_y")


class Row(NamedTuple):
    """A row that is split: the fields that are copied, and the text of the geometry by which it is cut, empty where that is NULL."""

    fields: list[str]
    text: str


def records(path: str) -> list[list[str]]:
    """Returns the header and the records of a table."""
    with open(path, encoding="utf-8", newline="") as file:
        return [it for it in csv.reader(file) if it]


def rows(path: str, columns: Sequence[str], by: Optional[str] = None) -> list[Row]:
    """Returns the rows of a table with these columns, for tiles by the column `by`."""
    header, *found = records(path)
    names = [it.lower() for it in header]
    at = [names.index(it.lower()) for it in columns]
    return [Row([it[place] for place in at], it[names.index(by.lower())] if by else "") for it in found]


def envelope(text: str) -> Optional[Envelope]:
    """Returns the least and greatest x and y of a geometry's text, or None where it is empty."""
    numbers = [int(Decimal(it)) for it in NUMBER.findall(text)]
    return (min(numbers[::2]), max(numbers[::2]), min(numbers[1::2]), max(numbers[1::2])) if numbers else None


def meets(one: Optional[Envelope], other: Optional[Envelope]) -> bool:
    """Whether two envelopes meet; that of an empty geometry meets its like alone."""
    if one is None or other is None:
        return one is other
    return one[0] <= other[1] and other[0] <= one[1] and one[2] <= other[3] and other[2] <= one[3]


def marks(box: Optional[Envelope], cell: Optional[Envelope]) -> tuple[int, int]:
    """Returns whether an envelope begins west, and south, of a cell."""
    return (0, 0) if box is None or cell is None else (int(box[0] < cell[0]), int(box[2] < cell[2]))


def tile(found: Sequence[Row], cell: Optional[Envelope]) -> list[list[str]]:
    """Returns the records of a tile: the rows whose envelope meets the cell, with their marks. The cell of empty geometries is None."""
    boxes = [(it.fields, envelope(it.text)) for it in found if it.text]
    return [[*fields, *map(str, marks(box, cell))] for fields, box in boxes if meets(box, cell)]


def stretches(found: Sequence[Row], most: int) -> list[list[list[str]]]:
    """Returns the records of each stretch, so many at most; one where there are none."""
    return [[it.fields for it in found[at : at + most]] for at in range(0, max(len(found), 1), most)]


def cell_of(listed: Mapping[str, str]) -> Optional[Envelope]:
    """Returns the cell of a record that sfq-tiles printed of a tile."""
    if not listed["least_x"]:
        return None
    west, east, south, north = (int(listed[it]) for it in SIDES)
    return west, east, south, north


def are_whole_grid(cells: Sequence[Envelope]) -> bool:
    """Whether cells have each position of the grid, and none twice."""
    area = sum((it[1] - it[0] + 1) * (it[3] - it[2] + 1) for it in cells)
    whole = (GRID[1] - GRID[0] + 1) * (GRID[3] - GRID[2] + 1)
    return area == whole and not any(meets(a, b) for at, a in enumerate(cells) for b in cells[:at])
