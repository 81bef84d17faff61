"""What an import says of the relations that rounding changed: lines, a file of the folder, and a layer. None of it is proved."""
from __future__ import annotations

import csv
import itertools
import os
from typing import Any, Iterable, Iterator, NamedTuple, Optional, Sequence

from ..layers import reading, relating, systems, workers
from ..tables import rules
from . import checking, folders, outputs
from .progress import Progress

# The file of a folder with a line for each pair, and its columns.
COLUMNS = ["table", "key", "other_table", "other_key", "before", "after", "x", "y"]
# The formats of a layer by the ending of its file.
FORMATS = {".gpkg": "GPKG", ".geojson": "GeoJSON", ".fgb": "FlatGeobuf"}
LAYER = "changed_relations"


class Table(NamedTuple):
    """A table of an import: its name, what messages call it, its reference system, the geometries that are compared, and how many aren't.

    `members` is None where the table has too many.
    """

    name: str
    label: str
    system: Any
    members: Optional[list[relating.Member]]
    others: int


def tables(layer: reading.Layer, name: str, found: Any) -> Iterator[Table]:
    """Returns what is compared of a table that a pass over a layer made: each of its columns of geometries."""
    for at, column in enumerate(layer.shapes):
        label = layer.label if len(layer.shapes) == 1 else f"{layer.label}.{column.name}"
        yield Table(name, label, layer.reference, found.members[at] if found.members is not None else None, found.uncompared)


class Said(NamedTuple):
    """What is said of the relations of one table, or of two."""

    tables: tuple[str, ...]
    label: str
    found: relating.Found
    line: str

    def described(self) -> dict[str, Any]:
        """Returns what grid.json says of it."""
        return {"tables": list(self.tables), "pairs": self.found.meeting, "changed": len(self.found.changes), "said": f"{self.label}: {self.line}"}

    def rows(self) -> Iterator[list[str]]:
        """Returns the lines of the file."""
        for it in self.found.changes:
            yield [self.tables[0], str(it.key), self.tables[-1], str(it.other), it.before, it.after, rules.real(it.x), rules.real(it.y)]


def compared(tables: Sequence[Table], checker: checking.Checker, modules: Any, grid: Any, name: str) -> list[Said]:
    """Compares the relations of each table, and of each two tables of one reference system."""
    geos, found = relating.of_gdal(modules), []
    alone: Iterable[tuple[Table, ...]] = ((it,) for it in tables)
    both = (it for it in itertools.combinations(tables, 2) if are_comparable(*it))
    with relating.quiet(modules):
        for each in itertools.chain(alone, both):
            members, label = [it.members for it in each], " and ".join(it.label for it in each)
            if not all(members):
                continue
            progress = Progress(name, wait=0.5)
            comparison = relating.Comparison(
                grid, geos, checker.matrices, lambda done, total: progress.show(f"relations of {label} {done:,} of {total:,}"), checker.TREE, workers.available())
            try:
                it = comparison.run(*(it or () for it in members))
            finally:
                progress.clear()
            if it.meeting or it.unknown or it.most is not None:
                found.append(Said(tuple(it.name for it in each), label, it, relating.line(it)))
    return found


def are_comparable(one: Table, other: Table) -> bool:
    """Whether two tables are in the same reference system, as far as they say."""
    return one.system is None or other.system is None or bool(systems.are_same(one.system, other.system))


def write(folder: folders.Folder, found: Sequence[Said]) -> None:
    """Writes the file of the changed pairs: those of the tables that stay, and then the new ones."""
    with open(folder.new(folders.CHANGED), "w", encoding="utf-8", newline="") as file:
        for row in (COLUMNS, *kept(folder), *(row for it in found for row in it.rows())):
            file.write(",".join(map(rules.quoted, row)) + "\n")


def kept(folder: folders.Folder) -> Iterator[list[str]]:
    """Returns the lines of the file that is there, of tables that stay."""
    path = f"{folder.path}/{folders.CHANGED}"
    if folder.found and os.path.isfile(path):
        known = {it["table"] for it in folder.layers}
        with open(path, newline="", encoding="utf-8") as file:
            yield from ([row[it] for it in COLUMNS] for row in csv.DictReader(file) if {row["table"], row["other_table"]} <= known)


def format_of(path: str) -> str:
    """Returns GDAL's name of the format of a layer by the ending of its file, nothing where that says none."""
    return FORMATS.get(os.path.splitext(path)[1].lower(), "")


def as_layer(modules: reading.Modules, found: Sequence[Said], system: Any, path: str) -> None:
    """Writes the changed pairs as a layer of points, which is there as a whole or not at all. OSError where GDAL can't."""
    gdal, ogr, _ = modules
    with outputs.made_by_gdal(path) as new:
        source = gdal.GetDriverByName(format_of(path)).Create(new, 0, 0, 0, gdal.GDT_Unknown)
        layer = source.CreateLayer(LAYER, system, ogr.wkbPoint)
        for it in COLUMNS[:-2]:
            layer.CreateField(ogr.FieldDefn(it, ogr.OFTString))
        for row in (row for it in found for row in it.rows()):
            feature = ogr.Feature(layer.GetLayerDefn())
            for at, text in enumerate(row[:-2]):
                feature.SetField(at, text)
            point = ogr.Geometry(ogr.wkbPoint)
            point.AddPoint_2D(*map(float, row[-2:]))
            feature.SetGeometryDirectly(point)
            layer.CreateFeature(feature)
        del layer, source


def notes(relations: Sequence[Any], layers: Iterable[Any]) -> Iterator[str]:
    """Returns what grid.json says of relations that rounding changed between the tables of a query: one table has to be in it twice."""
    named = [it.said["table"].lower() for it in layers]
    for it in relations:
        of = [name.lower() for name in it["tables"]]
        if it["changed"] and all(named.count(name) >= (2 if len(of) == 1 else 1) for name in of):
            yield it["said"]
