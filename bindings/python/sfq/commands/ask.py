"""The command sfq-ask: one call from layers to an answer.

    sfq-ask FOLDER|SOURCE .. "SELECT .."

Of sources it makes tables as sfq-import does, and keeps them for the next call; a folder that sfq-import made is asked as it is.
Constants of the query and its answer are in the coordinates of the sources. None of it is proved; what sfq gives over the tables is.
"""
from __future__ import annotations

import argparse
import collections
import csv
import dataclasses
import functools
import io
import os
import shlex
import shutil
import sys
import tempfile
from typing import Any, Callable, Iterator, NamedTuple, Optional, TextIO

from .. import __version__
from ..geometry.counts import number_of
from ..geometry.faults import LibraryError
from ..layers import reading
from ..tables import rules, statements
from . import asking, caches, changes, child, constants, coverage, endings, exports, geopackage, imports, in_sqlite, left_out, records, showing, streams, stretches, units
from .asking import Refused
from .conditions import Conditions
from .endings import DATA, DONE, FILES, MISSING, USAGE, Stopped
from .outputs import Output
from .progress import Progress

NAME = "sfq-ask"
MODES = ("csv", "table", "json", "geojson", "gpkg", "svg")
# The status where a layer isn't a coverage, or it isn't known whether it is one.
NO_COVERAGE = 8
# Those in which a plan can't be written.
PICTURES = ("gpkg", "svg")
# The file of kept tables with the lines that were said when they were made.
REPORT = "report.txt"
# Drivers of GDAL that read files alone, all of which they list, and the beginnings of the variables that GDAL and PROJ take.
OF_FILES = ("ESRI Shapefile", "GPKG", "GeoJSON", "GeoJSONSeq", "TopoJSON", "ESRIJSON", "FlatGeobuf", "CSV", "KML", "LIBKML", "GPX", "MapInfo File", "OpenFileGDB",
            "DXF", "Parquet", "Arrow", "ODS", "XLSX")
OF_GDAL = ("GDAL_", "OGR_", "SHAPE_", "PROJ_", "CPL_", "OSR_")

say = functools.partial(endings.say, NAME)


# ---- how an answer is written ----


def as_geojson(returned: units.Returned, file: TextIO) -> None:
    """Writes a collection of features, each with the columns but its geometry as properties."""
    place = need_geometry(returned)
    text = exports.GeoJson(file, returned.headers, place, {})
    text.kinds = [it.kind for it in returned.columns]
    text.begin(exports.member_of_system(returned.columns[place].system))
    position = exports.as_it_is(returned.grid)
    for row in returned.rows():
        text.add(row, position)
    text.end()


def as_svg(returned: units.Returned, file: TextIO) -> None:
    """Writes a picture."""
    need_geometry(returned)
    with tempfile.TemporaryFile("w+", encoding="utf-8") as spool:
        picture = exports.Picture(spool, returned.grid)
        for row in returned.rows():
            picture.add(row)
        picture.write(file, "the answer")


def need_geometry(returned: units.Returned) -> int:
    """Returns which column is the geometry of a row. Stopped where none is."""
    if returned.place is None:
        raise Stopped(f"no column of the answer is a geometry: select one (there are {', '.join(returned.headers)})", USAGE)
    return returned.place


def write(returned: units.Returned, mode: str, file: TextIO) -> None:
    """Writes an answer as a text. A plan is lines, but in JSON."""
    if returned.answer.is_plan or mode not in ("geojson", "svg"):
        width = os.get_terminal_size(file.fileno()).columns or None if file.isatty() else None
        showing.show(returned.shown(), mode, showing.Place(file, width, ""))
    elif mode == "geojson":
        as_geojson(returned, file)
    else:
        as_svg(returned, file)
    file.flush()


def give(returned: units.Returned, mode: str, output: Output) -> None:
    """Writes an answer to standard output, or into a file that is there as a whole at the end or not at all."""
    if returned.answer.is_plan and mode in PICTURES:
        raise Stopped(f"--out {mode}: a plan has no geometries", USAGE)
    if mode == "gpkg":
        geopackage.write(returned, output)
    else:
        write(returned, mode, output.file or sys.stdout)
    output.keep()


# ---- the query ----


def need_few(folder: units.Folder, conditions: Conditions, query: str, is_kept: bool) -> None:
    """Stopped where a table that is asked has more rows than one run of sfq takes, with the command that takes them."""
    for it in conditions.layers.values():
        if it.said["rows"] > rules.MOST_ROWS:
            place, first = (folder.path, "") if is_kept else ("DIR", "sfq-import SOURCE --out DIR and then ")
            words = shlex.join([f"{place}/schema.sql", place, query])
            raise Stopped(
                f"{it.said['table']} has {it.said['rows']:,} rows, and one run of sfq takes at most {rules.MOST_ROWS:,}. sfq-scale takes more, by "
                f"{first}sfq-scale run {words} --scheduler tcp://HOST:PORT; sfq-export --like {shlex.quote(place)} brings its answer back", DATA)


def asker(folder: units.Folder, conditions: Conditions, is_parted: bool) -> Callable[[str], asking.Answer]:
    """Returns what gives the answer to a query over the tables that `conditions` names, or is Refused. A table that is too large for one run is
    queried in stretches."""
    if is_parted:
        return lambda query: stretches.ask(NAME, folder, conditions, query)
    return asking.Asker(NAME, [folder.schema_file, folder.path], folder.schema).ask


def of_wholes(folder: units.Folder, conditions: Conditions, query: str) -> Optional[records.Query]:
    """Returns a query about records of which some are several rows, as wholes; None where it isn't one, or can't be."""
    if not records.wanted(conditions):
        return None
    try:
        found = records.Query(NAME, folder, query)
    except records.Uncovered as reason:
        conditions.uncovered = f"and {reason}"
        # sfq says what is wrong with a query that SQLite hasn't more for.
        conditions.is_faulty = reason.is_refused and not in_sqlite.wanted(conditions)
        return None
    conditions.is_of_wholes = True
    return found


def ask(options: argparse.Namespace, folder: units.Folder, is_kept: bool, output: Output) -> None:
    """Asks the query, and writes its answer. Refused where there is none."""
    notes = folder.choose_columns(options.query)
    given = Conditions(options.query, folder)
    written = constants.Written(options.query, folder.grid, given.numbers(NAME))
    conditions = Conditions(options.query, folder, written.made)
    conditions.compared = given.compared
    whole = of_wholes(folder, conditions, written.made)
    conditions.need_lawful(NAME)
    written.need_on_grid(NAME)
    is_parted = stretches.is_wanted(conditions, written.made)
    if not is_parted:
        need_few(folder, conditions, written.made, is_kept)
    if not options.lenient and not statements.is_plan(options.query):
        left_out.need_whole(folder, conditions.layers)
    try:
        if whole:
            found = whole.returned(asker(folder, conditions, is_parted))
        else:
            found = folder.returned(asker(folder, conditions, is_parted)(written.made), written.made)
    except Refused as error:
        refused = written.refused(error, NAME)
        if not error.code.startswith("Q"):
            raise refused from None
        if in_sqlite.wanted(conditions):
            need_few(folder, conditions, written.made, is_kept)
        found = in_sqlite.ask(NAME, folder, conditions, written.made, refused)
        notes.append(f"SQLite ran the query over the tables and relations of sfq, which has no {in_sqlite.wanted(conditions)}; what it computes of "
                     "coordinates and of columns that count steps is in steps")
    try:
        give(found, options.out, output)
    finally:
        found.answer.close()
    for it in (*notes, *left_out.notes(folder, conditions.layers.values()), *conditions.notes(), *changes.notes(folder.relations, conditions.layers.values())):
        say(f"note: {it}")


def cover(options: argparse.Namespace, folder: units.Folder, output: Output) -> int:
    """Writes what keeps a table from being a coverage, and returns the status: whether it is one, and no record is left out of it."""
    layer, progress = coverage.layer_named(folder, options.coverage), Progress(NAME, wait=0.5)
    lacking = list(left_out.notes(folder, [layer]))
    try:
        found = coverage.check(list(coverage.areas_of(folder, layer)), progress)
    finally:
        progress.clear()
    give(coverage.returned(found, folder, layer), options.out, output)
    say(found.line(str(layer.said["table"])))
    for it in (*lacking, *changes.notes(folder.relations, [layer, layer])):
        say(f"note: {it}")
    return DONE if found.is_coverage and (options.lenient or not lacking) else NO_COVERAGE


# ---- the tables ----


class Place(NamedTuple):
    """Where tables are made: the cache, unless they aren't kept, and a folder for this run alone."""

    cache: Optional[caches.Cache]
    room: str


def place_of(options: argparse.Namespace) -> Place:
    """Returns where tables are made. Where the cache can't be written they aren't kept, which a line says."""
    if not options.no_cache:
        try:
            cache = caches.Cache(caches.root())
            return Place(cache, cache.room())
        except OSError as error:
            say(f"the tables aren't kept: {endings.reason(error)}")
    return Place(None, tempfile.mkdtemp(prefix="sfq-ask-"))


def made(options: argparse.Namespace, place: Place) -> tuple[units.Folder, bool]:
    """Returns the folder of the tables of the sources, and whether it is kept: one that is there of the same, else a new one."""
    name = caches.sum_of(options.sources, depends_on(options))
    found = place.cache.found(name) if place.cache and name else None
    if found:
        folder = units.Folder(found)
        step, origin = folder.grid.spelled
        say(f"--grid {step} --origin {','.join(origin)}; the tables are in {found}, and what was said of them in its {REPORT}")
        for it in mended(found):
            say(it)
        return folder, True
    path, lines = f"{place.room}/tables", []

    def saying(line: str) -> None:
        lines.append(f"{line}\n")
        say(line)

    imports.import_sources(options.sources, path, options.of_import, NAME, saying)
    if name != caches.sum_of(options.sources, depends_on(options)):
        raise Stopped("a source changed while it was read: ask again", FILES)
    if not place.cache:
        return units.Folder(path), False
    if not name or not all(map(is_of_its_files, options.sources)):
        say("the tables aren't kept: a source isn't made of files alone")
        return units.Folder(path), False
    with open(f"{path}/{REPORT}", "w", encoding="utf-8") as file:
        file.writelines(lines)
    place.cache.clean()
    path = place.cache.keep(path, name)
    say(f"the tables are kept in {path}")
    return units.Folder(path), True


def depends_on(options: argparse.Namespace) -> Any:
    """Returns what an import depends on beside its sources: the versions, the options, and what GDAL takes from the environment."""
    # It takes longer to load than all else.
    from importlib import metadata

    try:
        gdal = metadata.version("GDAL")
    except metadata.PackageNotFoundError:
        gdal = ""
    environment = {name: value for name, value in os.environ.items() if name.startswith(OF_GDAL)}
    return [__version__, gdal, dataclasses.asdict(options.of_import), environment]


def is_of_its_files(source: str) -> bool:
    """Whether all that GDAL reads of a source is in files that its sum is over."""
    found = reading.Source(reading.modules(), source).file
    files = {os.path.realpath(it) for it in caches.files_of(source) or ()}
    return found.GetDriver().ShortName in OF_FILES and all(os.path.realpath(it) in files for it in found.GetFileList() or ())


def mended(folder: str) -> Iterator[str]:
    """Returns a line for each layer of which records were mended. What is said of those that are left out comes beneath the answer."""
    counts: collections.Counter[tuple[str, str]] = collections.Counter()
    with open(f"{folder}/left-out.csv", newline="", encoding="utf-8") as file:
        counts.update((row["layer"], row["done"]) for row in csv.DictReader(file) if row["done"] != left_out.DONE)
    for (layer, done), count in sorted(counts.items()):
        yield f"{layer}: {count:,} {done}: {folder}/left-out.csv says why"


def need_kept(options: argparse.Namespace, folder: units.Folder) -> None:
    """Stopped where the tables have too few records of their sources."""
    rows, records, without = (sum(it.said[name] for it in folder.layers.values()) for name in ("rows", "records", "left_out"))
    if not rows and not options.allow_empty:
        raise Stopped(f"no record was kept{'' if records else ': the sources have none'}; --allow-empty takes that", DATA)
    if options.strict and without:
        raise Stopped(f"{without:,} of {number_of(records, 'record')} {'was' if without == 1 else 'were'} left out", DATA)


def tables(options: argparse.Namespace, place: Place) -> tuple[units.Folder, bool]:
    """Returns the folder of the tables, and whether it will be there when the command has ended."""
    folder, is_kept = (units.Folder(options.sources[0]), True) if is_imported(options.sources[0]) else made(options, place)
    need_kept(options, folder)
    return folder, is_kept


def is_imported(path: str) -> bool:
    """Whether a path is that of a folder that sfq-import made."""
    return all(os.path.isfile(os.path.join(path, it)) for it in ("grid.json", "schema.sql"))


# ---- the command ----


def parser() -> argparse.ArgumentParser:
    found = argparse.ArgumentParser(
        prog=NAME, usage="sfq-ask [OPTION ..] FOLDER|SOURCE .. QUERY|--coverage LAYER", description="Runs a query over layers, in their own coordinates.",
        epilog="Statuses are those of sfq run: 3 the schema, 4 a table, a record under --invalid stop or --strict, or no record was kept, 5 the query, "
        "6 a file or the output, 7 out of memory; 8 the layer of --coverage isn't one; else 0 done, 1 GDAL or the library isn't there, 2 the command line. The manual: man sfq-ask.")
    add = found.add_argument
    add("words", metavar="FOLDER|SOURCE .. QUERY", nargs="+",
        help="a folder that sfq-import made, or files, folders or databases that GDAL reads; and the SELECT, or @FILE that has it")
    add("--out", choices=MODES, help="how the answer is written (by the ending of --output; else table on a terminal, and csv elsewhere)")
    add("--output", metavar="FILE", default="", help="write the answer into a file, as a whole or not at all")
    add("--coverage", metavar="LAYER", default="",
        help="in place of a query: list where areas of this layer overlap, where their borders have other vertices, and gaps between them")
    add("--no-cache", action="store_true", help="keep no tables in $XDG_CACHE_HOME/sfq")
    imports.add_options(found, {"action": "append"})
    add("--strict", action="store_true", help="end with status 4 if a record is left out")
    add("--lenient", action="store_true", help="run a join even if a record is left out whose envelope meets the other table")
    add("--allow-empty", action="store_true", help="run the query even if no record is kept")
    add("--version", action="version", version=f"{NAME} {__version__}")
    return found


def parsed(words: list[str]) -> argparse.Namespace:
    """Returns the options."""
    found = parser()
    options = found.parse_intermixed_args(imports.joined(words))
    options.sources, options.query = (options.words, "") if options.coverage else (options.words[:-1], options.words[-1])
    if not options.sources or os.path.exists(options.query):
        found.error("name a folder or a source, and behind it the query")
    if options.output and os.path.realpath(options.output) in map(os.path.realpath, options.sources):
        found.error(f"--output {options.output} is a source")
    ending = os.path.splitext(options.output)[1][1:].lower()
    options.out = options.out or (ending if ending in MODES else "") or ("csv" if options.output or not sys.stdout.isatty() else "table")
    if options.out == "gpkg" and not options.output:
        found.error("--out gpkg is written into a file: name it by --output FILE.gpkg")
    options.of_import = imports.options_of(options, found)
    if any(map(is_imported, options.sources)):
        if len(options.sources) > 1:
            found.error("a folder that sfq-import made is asked alone: sfq-import SOURCE --out FOLDER adds tables to it")
        if options.of_import != imports.options_of(found.parse_args([""]), found):
            found.error(f"{options.sources[0]} is imported, so it takes no option of an import")
    return options


def read_query(word: str) -> str:
    """Returns the text of a query: that of a file or of standard input behind @."""
    if not word.startswith("@"):
        return word
    if word == "@-":
        return streams.standard_input().read()
    with open(word[1:], encoding="utf-8", errors="surrogateescape", newline="\n") as file:
        return file.read()


def run(options: argparse.Namespace, place: Place, output: Output) -> int:
    """Makes the tables and asks the query, and returns the status."""
    csv.field_size_limit(sys.maxsize)
    for it in (sys.stdout, sys.stderr):
        if isinstance(it, io.TextIOWrapper):
            it.reconfigure(encoding="utf-8", errors="surrogateescape", newline="\n")
    try:
        folder, is_kept = tables(options, place)
        if options.coverage:
            return cover(options, folder, output)
        ask(options, folder, is_kept, output)
    except Refused as error:
        sys.stdout.flush()
        sys.stderr.write(error.text)
        return error.status
    except (LibraryError, reading.Missing) as error:
        raise Stopped(str(error).removeprefix("sfq: "), MISSING) from None
    return DONE


def begun(options: argparse.Namespace) -> int:
    """Runs the command in a process of its own, and removes what that leaves."""
    options.query = read_query(options.query)
    output, place = Output(options.output, options.out == "gpkg"), Place(None, "")
    try:
        if not is_imported(options.sources[0]):
            with endings.held():
                place = place_of(options)
        return child.run(lambda: endings.ended(NAME, lambda: run(options, place, output), (OSError, RuntimeError)))
    finally:
        with endings.held():
            if place.room:
                shutil.rmtree(place.room, ignore_errors=True)
            output.drop()


def main(words: Optional[list[str]] = None) -> int:
    """Runs the command, and returns its status."""
    return endings.ended(NAME, lambda: begun(parsed(sys.argv[1:] if words is None else words)))
