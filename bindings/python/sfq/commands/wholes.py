"""Records that are several rows of a table: whether a predicate over the rows says what it says of the records. None of it is proved."""
from __future__ import annotations

import csv
import itertools
import re
import sys
from typing import Iterator, NamedTuple, Optional, Sequence

from ..geometry.shapes import Geometry
from . import exports, left_out, units
from .left_out import Box

# The predicates that hold of no two geometries whose envelopes don't meet.
MEETING = ("ST_Intersects", "ST_Equals", "ST_Touches", "ST_Crosses", "ST_Within", "ST_Contains", "ST_Overlaps")
NUMBER = re.compile(r"[+-]?(?:[0-9]+\.?[0-9]*|\.[0-9]+)")
BOUNDARY = 1


class Whole(NamedTuple):
    """A record that is several rows: its key, the number of its first row, its envelope in steps of the grid, the texts of its parts, and the
    points that it is compared with."""

    key: str
    first: int
    box: Box
    texts: list[str]
    points: list[tuple[int, int]]


def wholes(folder: units.Folder, layer: units.Layer) -> Optional[list[Whole]]:
    """Returns the records of a table that are several rows; None where the table doesn't say which are."""
    part, whole = (str(layer.said["parted"].get(it)).lower() for it in ("part", "whole"))
    csv.field_size_limit(sys.maxsize)
    with open(f"{folder.path}/{layer.said['table']}.csv", newline="", encoding="utf-8", errors="replace") as file:
        rows = csv.reader(file)
        header = [it.lower() for it in next(rows, [])]
        shape = next((at for at, it in enumerate(header) if it in layer.columns and layer.columns[it]["type"] in exports.GEOMETRIC), None)
        if part not in header or whole not in header or shape is None:
            return None
        number, at, found = header.index(part), header.index(whole), []
        # The rows of a record are one behind another.
        for key, each in itertools.groupby(rows, lambda row: row[at]):
            its = list(each)
            if len(its) > 1:
                texts = [row[shape] for row in its]
                numbers = [int(it) for text in texts for it in left_out.NUMBER.findall(text)]
                box = min(numbers[0::2]), min(numbers[1::2]), max(numbers[0::2]), max(numbers[1::2])
                found.append(Whole(key, int(its[0][number]), box, texts, []))
        return found


def of_text(text: str, folder: units.Folder) -> Iterator[Box]:
    """Yields the envelope of a constant in the coordinates of the source, in steps of the grid; none of an empty one."""
    numbers = [float(it) for it in NUMBER.findall(text)]
    if len(numbers) > 1:
        yield left_out.on_grid((min(numbers[0::2]), min(numbers[1::2]), max(numbers[0::2]), max(numbers[1::2])), folder.grid)


def say_the_same(folder: units.Folder, name: str, layers: Sequence[units.Layer], constants: Sequence[str]) -> bool:
    """Whether a predicate says of the parts of each record what it says of the record.

    That is so where the envelope of what the record is compared with doesn't meet its own, and where that is a point which isn't on a cut: a point
    of the boundaries of two parts. `layers` are the tables of the columns of the call, and `constants` are its texts.
    """
    tables = {str(it.said["table"]) for it in layers}
    if name not in MEETING or len(layers) + len(constants) != 2 or len(tables) < len(layers):
        return False
    for at, layer in enumerate(layers):
        found = wholes(folder, layer) if layer.has_parts else []
        if found is None:
            return False
        others: list[Box] = list(left_out.boxes(folder, layers[1 - at]) if not constants else of_text(constants[0], folder)) if found else []
        if not all(takes(it, other) for it in found for other in meeting(it.box, others)):
            return False
        if any(is_on_cut(it) for it in found if it.points):
            return False
    return True


def meeting(box: Box, others: Sequence[Box]) -> list[Box]:
    """Returns the envelopes that meet one."""
    left, low, right, high = box
    return [it for it in others if it[0] <= right and it[2] >= left and it[1] <= high and it[3] >= low]


def takes(whole: Whole, other: Box) -> bool:
    """Whether a geometry whose envelope meets that of a record is a point, which the record keeps."""
    if other[0] < other[2] or other[1] < other[3]:
        return False
    whole.points.append((int(other[0]), int(other[1])))
    return True


def is_on_cut(whole: Whole) -> bool:
    """Whether one of the points that a record is compared with is on the boundaries of two of its parts."""
    places = (Geometry(it).locate_many(whole.points) for it in whole.texts)
    return any(sum(it == BOUNDARY for it in its) > 1 for its in zip(*places))
