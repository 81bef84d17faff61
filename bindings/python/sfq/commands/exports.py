"""The command sfq-export: brings the rows of an answer back with true coordinates, as GeoJSON (RFC 7946) and as a picture.

    sfq run DIR/schema.sql DIR QUERY | sfq-export - --like DIR --to OUT.geojson --svg OUT.svg

DIR is what sfq-import made: its grid.json has step and origin. A coordinate n is written as origin + n * step, exactly, with as many
digits as these have. None of it is proved.
"""
from __future__ import annotations

import argparse
import contextlib
import csv
import json
import os
import re
import sys
import tempfile
from html import escape
from typing import IO, Any, Callable, Iterator, NamedTuple, Optional, Sequence, TextIO

from .. import __version__
from ..geometry import grids, texts
from ..geometry.counts import number_of
from ..layers import reading, systems
from ..tables import rules
from . import endings, streams
from .endings import DATA, DONE, MISSING, USAGE, Stopped
from .outputs import Output, are_one, keep

NAME = "sfq-export"
GEOMETRIC = {"GEOMETRY", *(it.upper() for it in texts.TYPES)}
# Functions whose values are whole numbers.
COUNTS = ("COUNT(", "ST_DIMENSION(", "ST_ISEMPTY(")
SIZE, MARGIN, COLOUR = 480, 24, "#2a6fb0"


class Known(NamedTuple):
    """What grid.json says: the grid, the columns by their names in lower case, their tables' coordinate systems, the layers, and the relations
    that rounding changed."""

    grid: grids.Grid
    types: dict[str, str]
    systems: dict[str, Any]
    layers: Sequence[Any] = ()
    relations: Sequence[Any] = ()


def kind_of(column: Any) -> str:
    """Returns the type of a column that grid.json describes; REAL of a TEXT column of numbers, and of one that counts steps their size."""
    return str(column.get("step") or ("REAL" if column.get("is_real") else column["type"]))


def known(folder: str) -> Known:
    """Reads the grid.json of a folder."""
    path = os.path.join(folder, "grid.json")
    with open(path, encoding="utf-8") as file:
        try:
            found = json.load(file)
            types: dict[str, str] = {}
            of_columns: dict[str, Any] = {}
            for layer in found["layers"]:
                need_layer(layer)
                for it in layer["columns"]:
                    name, kind = it["name"].lower(), kind_of(it)
                    types[name] = kind if types.get(name, kind) == kind else "GEOMETRY" if kind in GEOMETRIC else "TEXT"
                    if kind in GEOMETRIC:
                        of_columns.setdefault(name, []).append(layer["coordinate_system"])
            relations = found.get("relations", [])
            for it in relations:
                it["said"], it["changed"], *it["tables"]
            return Known(grids.Grid.of_file(found), types, of_columns, found["layers"], relations)
        except (KeyError, TypeError, ValueError, RecursionError) as error:
            raise Stopped(f"{path} isn't one that sfq-import made: {error!r}", DATA) from None


def need_layer(layer: Any) -> None:
    """KeyError, TypeError or ValueError where grid.json says of a layer what no import writes."""
    system = layer["coordinate_system"]
    said = [it[name] for it in layer["columns"] for name in ("name", "type")] + ([system["wkt"], system["authority"] or ""] if system else [])
    for it in layer["columns"]:
        if it.get("step"):
            grids.Scale(it["step"])
    if not all(isinstance(it, str) for it in said) or not all(it["type"] for it in layer["columns"]):
        raise TypeError("a name, a type or a coordinate system isn't a text")


def column_of(header: str) -> str:
    """Returns the column that a header names, in lower case: `geom` of `a.geom` and of `ST_AsText(a.geom)`."""
    found = re.fullmatch(r"ST_AsText\((.*)\)", header, re.I)
    return (found[1] if found else header).rpartition(".")[2].lower()


def geometry_in(headers: list[str], wanted: str, types: dict[str, str]) -> int:
    """Returns the place of the geometry among the columns of an answer. Stopped where there is none, or more than one."""
    if wanted:
        found = [at for at, it in enumerate(headers) if it.lower() == wanted.lower()]
        if len(found) != 1:
            raise Stopped(f"{len(found)} columns of the answer are named {wanted}; there are {', '.join(headers)}", USAGE)
        return found[0]
    found = [at for at, it in enumerate(headers) if "(" not in column_of(it) and types.get(column_of(it)) in GEOMETRIC]
    if not found:
        raise Stopped(f"no column of the answer is a geometry: select one (there are {', '.join(headers)}), or name it by --geometry", USAGE)
    if len(found) > 1:
        raise Stopped(f"the answer has {', '.join(headers[it] for it in found)}: choose one by --geometry", USAGE)
    return found[0]


class Row(NamedTuple):
    """A row: its fields, and its geometry's type and whole coordinates, or None."""

    fields: list[str]
    shape: Optional[tuple[str, Any]]


def rows(records: Iterator[list[str]], place: int, width: int) -> Iterator[Row]:
    """Reads the rows below the header. Stopped at a record of another length or whose geometry isn't one."""
    for number, fields in enumerate(records, 1):
        if len(fields) != width:
            raise Stopped(f"record {number} has {number_of(len(fields), 'field')}, the header {width}", DATA)
        try:
            yield Row(fields, texts.coordinates(fields[place]) if fields[place] else None)
        except (KeyError, IndexError, ValueError):
            raise Stopped(f"record {number}: the geometry isn't well-known text as sfq writes it", DATA) from None


# ---- GeoJSON ----


def turned(name: str, parts: Any) -> Any:
    """Returns the coordinates with outer rings counterclockwise and holes clockwise (RFC 7946, 3.1.6)."""
    if name == "Polygon":
        return [ring if (area(ring) > 0) == (at == 0) else ring[::-1] for at, ring in enumerate(parts)]
    return [turned("Polygon", it) for it in parts] if name == "MultiPolygon" else parts


def area(ring: Any) -> int:
    """Returns twice the area of a ring, negative where it is clockwise."""
    return sum(a[0] * b[1] - b[0] * a[1] for a, b in zip(ring, ring[1:]))


def listed(parts: Any, depth: int, position: Callable[[Any], str]) -> str:
    """Returns coordinates as JSON has them."""
    if depth == 0:
        return position(parts)
    return "[" + ",".join([listed(it, depth - 1, position) for it in parts]) + "]"


def geometry_text(shape: Optional[tuple[str, Any]], position: Callable[[Any], str]) -> str:
    """Returns a geometry of GeoJSON (RFC 7946, 3.1); one that is EMPTY has no coordinates."""
    if shape is None:
        return "null"
    name, parts = shape
    spelled = listed(turned(name, parts), texts.TYPES[name], position) if len(parts) else "[]"
    return f'{{"type":"{name}","coordinates":{spelled}}}'


def value(text: str, kind: str) -> str:
    """Returns what JSON has for a field: a number of a column of numbers, null of an empty field, else the text.

    A whole number of a column that counts steps is multiplied by their size, exactly.
    """
    if not text:
        return "null"
    if kind == "REAL" and re.fullmatch(r"-?(0|[1-9][0-9]*)(\.[0-9]+)?([eE][+-]?[0-9]+)?", text):
        return text
    whole = rules.integer(text) if kind not in ("REAL", "TEXT") else None
    if whole is not None and kind == "INTEGER":
        return str(whole)
    if whole is not None and kind[0] in ".0123456789":
        return grids.Scale(kind).axis.text(whole)
    return json.dumps(text, ensure_ascii=False)


def as_it_is(grid: grids.Grid) -> Callable[[Any], str]:
    """Returns what writes a position in the units of the source."""
    x, y = grid.x.text, grid.y.text
    return lambda it: f"[{x(it[0])},{y(it[1])}]"


def as_degrees(grid: grids.Grid, system: Any) -> Callable[[Any], str]:
    """Returns what writes a position as longitude and latitude of WGS 84, to nine digits after the point."""
    osr = reading.modules().osr
    try:
        source = systems.of_text(osr, system["wkt"])
        moves = systems.transformation(osr, source, systems.named(osr, "EPSG:4326")).TransformPoint
    except (KeyError, TypeError, ValueError) as error:
        raise Stopped(f"grid.json isn't one that sfq-import made: {error}", DATA) from None

    def position(it: Any) -> str:
        found = moves(float(grid.x.text(it[0])), float(grid.y.text(it[1])))
        return f"[{found[0]:.9f},{found[1]:.9f}]"

    return position


def member_of_system(system: Any) -> str:
    """Returns the member `crs` that GeoJSON had before RFC 7946, for a system with a code that isn't longitude and latitude."""
    code = system and system["authority"]
    if not code or code in ("EPSG:4326", "OGC:CRS84"):
        return ""
    name = "urn:ogc:def:crs:" + code.replace(":", "::")
    return f'"crs":{{"type":"name","properties":{{"name":{json.dumps(name)}}}}},\n'


class GeoJson:
    """A file of GeoJSON that is written row by row."""

    def __init__(self, file: TextIO, headers: list[str], place: int, types: dict[str, str]) -> None:
        self.file, self.place, self.count = file, place, 0
        self.kinds = ["INTEGER" if it.upper().startswith(COUNTS) else types.get(column_of(it), "TEXT") for it in headers]
        self.names = [json.dumps(it, ensure_ascii=False) for it in headers]

    def begin(self, system: str) -> None:
        self.file.write(f'{{"type":"FeatureCollection",\n{system}"features":[')

    def add(self, row: Row, position: Callable[[Any], str]) -> None:
        pairs = [
            f"{name}:{value(field, kind)}"
            for at, (name, field, kind) in enumerate(zip(self.names, row.fields, self.kinds)) if at != self.place
        ]
        self.file.write(",\n" if self.count else "\n")
        self.file.write(f'{{"type":"Feature","properties":{{{",".join(pairs)}}},"geometry":{geometry_text(row.shape, position)}}}')
        self.count += 1

    def end(self) -> None:
        self.file.write("\n]}\n")


# ---- SVG ----


def lines_of(shape: tuple[str, Any]) -> list[Any]:
    """Returns the lists of positions of a geometry that has some."""
    name, parts = shape
    depth = texts.TYPES[name]
    if depth == 0:
        return [[parts]]
    return [parts] if depth == 1 else list(parts) if depth == 2 else [it for each in parts for it in each]


class Picture:
    """A picture of the rows. They are kept in a file until it is known where they lie."""

    def __init__(self, spool: IO[str], grid: grids.Grid) -> None:
        self.spool, self.grid, self.count = spool, grid, 0
        self.bounds: Optional[tuple[Any, Any, Any, Any]] = None

    def add(self, row: Row) -> None:
        if row.shape is None or not len(row.shape[1]):
            return
        self.count += 1
        for line in lines_of(row.shape):
            for x, y in line:
                left, low, right, high = self.bounds or (x, y, x, y)
                self.bounds = min(left, x), min(low, y), max(right, x), max(high, y)
        self.spool.write(json.dumps(row.shape) + "\n")

    def write(self, file: TextIO, name: str) -> None:
        """Writes the picture: y goes up, as in the source."""
        left, low, right, high = self.bounds or (0, 0, 0, 0)
        scale = (SIZE - 2 * MARGIN) / max(right - left, high - low, 1)
        x, y = self.grid.x.text, self.grid.y.text
        where = f"x from {x(left)} to {x(right)}, y from {y(low)} to {y(high)}" if self.bounds else "no geometry"
        file.write(f'<svg xmlns="http://www.w3.org/2000/svg" viewBox="0 0 {SIZE} {SIZE}" width="{SIZE}" height="{SIZE}">\n'
                   f"<title>{escape(name, quote=False)}: {self.count} geometries</title>\n<desc>{where}</desc>\n"
                   '<rect width="100%" height="100%" fill="#fff"/>\n')
        self.spool.seek(0)
        for line in self.spool:
            kind, parts = json.loads(line)
            file.write(drawn(kind, parts, lambda it: (MARGIN + (it[0] - left) * scale, MARGIN + (high - it[1]) * scale)) + "\n")
        file.write("</svg>\n")


def drawn(name: str, parts: Any, place: Callable[[Any], tuple[float, float]]) -> str:
    """Returns the drawing of a geometry: a dot for a point, a path for the rest."""
    if name in ("Point", "MultiPoint"):
        dots = ["<circle cx=\"%.2f\" cy=\"%.2f\" r=\"5\"/>" % place(it) for it in ([parts] if name == "Point" else parts)]
        return f'<g class="row" fill="{COLOUR}">{"".join(dots)}</g>'
    way = " ".join("M" + " L".join("%.2f,%.2f" % place(it) for it in line) for line in lines_of((name, parts)))
    if "Polygon" not in name:
        return f'<path class="row" d="{way}" fill="none" stroke="{COLOUR}" stroke-width="2"/>'
    return f'<path class="row" d="{way} Z" fill="{COLOUR}" fill-opacity="0.25" fill-rule="evenodd" stroke="{COLOUR}" stroke-width="2"/>'


# ---- the command ----


def system_of(column: str, found: Known) -> Any:
    """Returns the coordinate system of a geometry column, None where its tables have several or none."""
    known = found.systems.get(column) or [it for each in found.systems.values() for it in each]
    return known[0] if known and all(it == known[0] for it in known) else None


def export(records: Iterator[list[str]], options: argparse.Namespace, geo: Output, svg: Output) -> None:
    """Writes the rows of an answer."""
    found = known(options.like)
    headers = next(records, None)
    if headers is None:
        raise Stopped("the answer has no header", DATA)
    place = geometry_in(headers, options.geometry, found.types)
    system = system_of(column_of(headers[place]), found)
    if options.wgs84 and system is None:
        raise Stopped(f"--wgs84: {options.like}/grid.json has no coordinate system of {headers[place]}", USAGE)
    position = as_degrees(found.grid, system) if options.wgs84 else as_it_is(found.grid)
    with tempfile.TemporaryFile("w+", encoding="utf-8") as spool:
        picture, text = Picture(spool, found.grid), GeoJson(geo.file, headers, place, found.types) if geo.file else None
        if text:
            text.begin("" if options.wgs84 else member_of_system(system))
        for row in rows(records, place, len(headers)):
            if text:
                text.add(row, position)
            if svg.file:
                picture.add(row)
        if text:
            text.end()
        if svg.file:
            picture.write(svg.file, "the answer" if options.rows == "-" else os.path.basename(options.rows))


def parser() -> argparse.ArgumentParser:
    found = argparse.ArgumentParser(prog=NAME, description="Brings the rows of an answer of sfq back with true coordinates.",
                                    epilog="Statuses: 0 done, 1 GDAL isn't there (for --wgs84), 2 the command line, 4 a record, 6 files, "
                                    "7 memory. The manual: man sfq-export.")
    add = found.add_argument
    add("rows", metavar="ROWS", help="the file of an answer with its header; - is standard input")
    add("--like", metavar="DIR", required=True, help="the folder that sfq-import made")
    add("--to", metavar="OUT.geojson", default="", help="write GeoJSON")
    add("--svg", metavar="OUT.svg", default="", help="write a picture")
    add("--geometry", metavar="NAME", default="", help="the column of the answer that is the geometry, by its header")
    add("--wgs84", action="store_true", help="write longitude and latitude, if the source's coordinate system is known")
    add("--version", action="version", version=f"{NAME} {__version__}")
    return found


def run(options: argparse.Namespace) -> None:
    """Does an export: its files are there as a whole at the end, or not at all."""
    csv.field_size_limit(sys.maxsize)
    with contextlib.ExitStack() as stack:
        outputs: list[Output] = []
        for path in (options.to, options.svg):
            outputs.append(Output(path))
            stack.callback(outputs[-1].drop)
        if options.rows == "-":
            file: TextIO = streams.standard_input(newline="", errors="strict")
        else:
            file = stack.enter_context(open(options.rows, newline="", encoding="utf-8"))
        export(csv.reader(file), options, *outputs)
        keep(outputs)


def parsed(words: Optional[list[str]]) -> argparse.Namespace:
    """Returns the options. Words that can't be meant end the command."""
    found = parser()
    options = found.parse_args(words)
    if not options.to and not options.svg:
        found.error("one of --to and --svg is needed")
    if options.to and not options.to.lower().endswith((".geojson", ".json")):
        found.error(f"--to writes GeoJSON alone: name it {options.to}.geojson, and let ogr2ogr make other formats of it")
    if are_one([options.to, options.svg]):
        found.error(f"--to and --svg name one file, {options.svg}")
    for it in (options.to, options.svg):
        if it and is_given(it, options):
            found.error(f"{it} is a file of the answer or of its tables")
    return options


def is_given(path: str, options: argparse.Namespace) -> bool:
    """Whether a path is that of a file that is read, or of a table of the folder."""
    place = os.path.realpath(path)
    folder, name = os.path.split(place)
    is_of_tables = name in ("grid.json", "schema.sql") or name.endswith(".csv")
    return place == os.path.realpath(options.rows) or folder == os.path.realpath(options.like) and is_of_tables


def run_words(words: Optional[list[str]]) -> int:
    """Does an export, and returns its status. Stopped also where GDAL isn't there, or the answer isn't UTF-8."""
    try:
        run(parsed(words))
    except reading.Missing as error:
        raise Stopped(str(error), MISSING) from None
    except UnicodeDecodeError as error:
        raise Stopped(f"the answer isn't UTF-8: {error}", DATA) from None
    return DONE


def main(words: Optional[list[str]] = None) -> int:
    """Runs the command, and returns its status."""
    return endings.ended(NAME, lambda: run_words(words), (OSError, RuntimeError, csv.Error))
