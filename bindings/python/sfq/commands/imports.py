"""The command sfq-import: makes the tables of sfq from any vector sources that GDAL reads.

    sfq-import SOURCE .. --out DIR [--grid STEP] [--origin X,Y] [--to EPSG:N] [--layer NAME ..] [--key COLUMN] [--scale COLUMN=STEP ..]
               [--columns NAME ..] [--xy X,Y] [--wkt COLUMN] [--invalid snap|mend|leave-out|stop] [--part] [--replace] [--rejects FILE]
               [--no-relations] [--changed FILE] [--anyway] [--strict] [--allow-empty]
    sfq-import SOURCE .. --steps

DIR then has schema.sql, a CSV file for each layer, grid.json, which remembers step and origin for sfq-export, and left-out.csv, which
lists each record that was left out or mended, with sfq's own reason. None of it is proved; what sfq accepts of it is.
"""
from __future__ import annotations

import argparse
import contextlib
import functools
import os
import sys
from dataclasses import dataclass, field
from typing import Any, Callable, Iterator, Mapping, NamedTuple, Optional, Sequence

from .. import __version__
from ..geometry import grids
from ..geometry.counts import number_of
from ..geometry.faults import LibraryError
from ..layers import proposing, reading, snapping, systems
from ..tables import near_names, rules
from . import changes, checking, endings, folders, left_out, rejects, reports, stepping
from .endings import DATA, DONE, MISSING, USAGE, Stopped
from .passes import Again, HasParts, Key, Means, NotAscending, Pass, type_of, written_as_multi

NAME = "sfq-import"
# The step or the origin that is to be proposed.
AUTO = "auto"
# What becomes of records that are refused: what rounding alone broke is rounded anew, and areas are cut whose rings touch; besides, others are
# mended; all are left out; the first one ends the import.
INVALID = ("snap", "mend", "leave-out", "stop")
# What --scale takes in place of columns where none gets a step by itself.
NO_SCALE = "none"
# How an option takes several values: one behind another.
MANY = {"nargs": "+", "action": "extend"}
Say = Callable[[str], None]


@dataclass(frozen=True)
class Options:
    """How sources are imported; the options of the command say more of each."""

    # The size of a step, a decimal number, and the place X,Y of 0 0. A step that is "auto" is proposed, and its origin where that is
    # empty; an empty origin of a step that is given is 0,0.
    grid: str = AUTO
    origin: str = ""
    # The code of the reference system that all geometries are moved to, and of the one that sources are in which say none.
    to: str = ""
    of: str = ""
    layers: Sequence[str] = ()
    key: str = ""
    # The size of a step of each column whose numbers are to be whole, and whether columns of decimal numbers get one by themselves.
    steps: Mapping[str, str] = field(default_factory=dict)
    scales: bool = True
    # The columns that tables get, of all layers; none means all.
    columns: Sequence[str] = ()
    # The columns of points' coordinates, or of texts of geometries, in layers that have no geometries of their own.
    xy: Sequence[str] = ()
    wkt: str = ""
    # What becomes of records that are refused: one of INVALID.
    invalid: str = "snap"
    # Whether records of more positions than sfq takes become several rows.
    is_parted: bool = False
    # Whether tables that are there by the names of new ones are replaced.
    replaces: bool = False
    # Whether the relations before and after rounding are compared, and the file of a layer of those that changed.
    compares: bool = True
    changed: str = ""
    # The file of a layer of the records that are left out.
    rejects: str = ""
    # Whether a step is taken that breaks more than 1% of the records.
    takes_anyway: bool = False


class Imported(NamedTuple):
    """What an import made: its grid, and what grid.json says of each new table."""

    grid: grids.Grid
    layers: list[dict[str, Any]]

    def count(self, name: str) -> int:
        """Returns the sum of `records`, `rows` or `left_out` over the new tables."""
        return sum(it[name] for it in self.layers)


class Import:
    """An import into the room of a folder."""

    def __init__(self, means: Means, folder: folders.Folder, key: str, say: Say) -> None:
        self.means, self.folder, self.key, self.say = means, folder, key, say
        self.schemas: list[str] = []
        self.layers: list[dict[str, Any]] = []
        # What is compared of each table, and what came of it.
        self.tables: list[changes.Table] = []
        self.compared: list[changes.Said] = []
        self.rejected: list[rejects.Rejected] = []
        # How many geometries aren't valid on the grid, and the layers of which the grid breaks records.
        self.invalid = 0
        self.broken: list[stepping.Broken] = []
        self.left_out = open(folder.new("left-out.csv"), "wb")
        for row in ([*folders.LEFT_OUT, *left_out.COLUMNS], *folder.kept_of_left_out(left_out.COLUMNS)):
            self.left_out.write(",".join(map(rules.quoted, row)).encode() + b"\n")

    def __enter__(self) -> Import:
        return self

    def __exit__(self, *_: object) -> None:
        # What is left can't be written where the disk is full.
        with contextlib.suppress(OSError):
            self.left_out.close()

    def finish_all(self) -> None:
        """Writes what speaks of all tables."""
        self.left_out.close()
        relations = [it.described() for it in self.compared]
        folders.written(self.folder, folders.Made(f"{NAME} {__version__}", self.means.grid.spelled, self.layers, relations, self.schemas))

    def compare(self) -> None:
        """Compares the relations of the tables before and after rounding, and says what came of it."""
        means = self.means
        self.compared = changes.compared(self.tables, means.checker, means.modules, means.grid, means.name)
        for it in self.compared:
            self.say(f"{it.label}: {it.line}")
        for table in self.tables:
            if table.others:
                self.say(f"{table.label}: relations of {number_of(table.others, 'mended or parted record')} aren't compared")
            if table.members is None:
                self.say(f"{table.label}: relations aren't compared in tables of more than {rules.MOST_ROWS:,} rows")
        if self.tables and self.folder.layers:
            self.say(f"relations with tables that were there aren't compared: {', '.join(it['table'] for it in self.folder.layers)}")
        changes.write(self.folder, self.compared)

    def first_key(self, layer: reading.Layer) -> Key:
        """Returns the key that is asked for where the layer has it and it can be one, else the FID."""
        if self.key in ("", layer.layer.GetFIDColumn()):
            return Key("")
        if not layer.is_whole(self.key):
            reason: Optional[str] = "isn't a column of whole numbers" if layer.has(self.key) else "isn't a column"
        else:
            reason = layer.repeated(layer.whole(layer.described.GetFieldIndex(self.key)))
            if reason is None:
                return Key(self.key, True)
            reason = f"can't be the key ({reason})"
        self.say(f"{layer.label}: {self.key} {reason}: the key is the FID")
        return Key("")

    def take(self, layer: reading.Layer, name: str) -> None:
        """Makes the table of a layer."""
        key, place, has_parts = self.first_key(layer), self.left_out.tell(), False
        while True:
            self.left_out.seek(place)
            self.left_out.truncate()
            with open(self.folder.new(f"{name}.csv"), "w+b", buffering=1 << 20) as table:
                found = Pass(self.means, layer, key, name, (table, self.left_out), has_parts)
                try:
                    found.run()
                    break
                except Again:
                    continue
                except NotAscending:
                    key = self.next_key(layer)
                except HasParts:
                    has_parts = True
        self.finish(layer, name, found)

    def next_key(self, layer: reading.Layer) -> Key:
        """Returns the FID as the key where each is another, though they don't ascend; else a counter."""
        reason = layer.repeated(lambda it: it.GetFID() if it.GetFID() >= 0 else None)
        if reason is None:
            return Key("", True)
        self.say(f"{layer.label}: the FID can't be the key ({reason}): the key is a counter")
        return Key("#", True)

    def finish(self, layer: reading.Layer, name: str, found: Pass) -> None:
        """Settles the types of a table's geometries, and says what there is to say of it."""
        first = len(found.columns) - len(layer.shapes)
        multi = set()
        for at, words in enumerate(found.words):
            column = found.columns[first + at]
            found.columns[first + at] = column._replace(type=type_of(words, layer.shapes[at].word))
            if found.columns[first + at].type.startswith("MULTI") and any(not it.startswith("MULTI") for it in words):
                multi.add(first + at)
        if multi:
            written_as_multi(f"{self.folder.room}/{name}.csv", multi, set().union(*found.words))
        self.schemas.append(rules.schema(name, found.columns, found.columns[0].name))
        self.rejected += found.rejected
        self.layers.append(reports.described(layer, name, found))
        reports.report(layer, name, found, self.say)
        if self.means.compares:
            self.tables += changes.tables(layer, name, found)
        self.invalid += found.invalid
        if found.broken:
            self.broken.append(stepping.Broken(layer.label, found.broken, found.records))


# ---- what is imported ----


def need_apart(sources: Sequence[str]) -> None:
    """Stopped where a source is named twice."""
    places = [os.path.realpath(it) if os.path.lexists(it) else it for it in sources]
    for at, it in enumerate(places):
        if it in places[:at]:
            raise Stopped(f"{reading.without_secrets(sources[at])} is named twice", USAGE)


def chosen(sources: Sequence[reading.Source], options: Options) -> list[reading.Layer]:
    """Returns the layers that are asked for. Stopped where one isn't there, a source has none of them, or a column is in none."""
    found, names = [it.layers(options.layers) for it in sources], set(options.layers)
    there = list(dict.fromkeys(name for it in sources for name in it.names()))
    for name in options.layers:
        if not any(it.name == name or it.layer.GetName() == name for each in found for it in each):
            raise Stopped(near_names.said(f"there is no layer {name}", name, there), USAGE)
    for source, each in zip(sources, found):
        if names and not each:
            raise Stopped(f"{source.name} has no layer {' or '.join(options.layers)}; it has {', '.join(source.names()) or 'none'}", USAGE)
    layers = [it for each in found for it in each]
    many = {it.name for at, it in enumerate(layers) if any(other.name == it.name for other in layers[:at])}
    for it in layers:
        if it.name in many:
            it.label = f"{os.path.basename(it.source.name)}: {it.name}"
    for option, columns in (("--key", [options.key] if options.key else []), ("--scale", options.steps), ("--columns", options.columns)):
        for column in columns:
            need_column(option, column, layers)
    for it in layers:
        it.kept = options.columns
    return layers


def need_column(option: str, name: str, layers: Sequence[reading.Layer]) -> None:
    """Stopped where no layer has a column that an option names."""
    if not any(it.has(name) for it in layers):
        there = dict.fromkeys(column for it in layers for column in it.named())
        raise Stopped(near_names.said(f"{option}: no layer has a column {name}", name, list(there)), USAGE)


def take_columns(layers: Sequence[reading.Layer], options: Options) -> None:
    """Has layers take their geometries from the columns that are asked for. Stopped where no layer can."""
    by_xy = [it for it in layers if options.xy and it.may_take(*options.xy)]
    by_wkt = [it for it in layers if options.wkt and it.may_take(options.wkt) and it not in by_xy]
    if options.xy and not by_xy:
        raise Stopped(f"--xy: no layer without geometries has the columns {options.xy[0]} and {options.xy[1]}", USAGE)
    if options.wkt and not by_wkt:
        raise Stopped(f"--wkt: no layer without geometries has a column {options.wkt}", USAGE)
    for it in by_xy:
        it.take_points(*options.xy)
    for it in by_wkt:
        it.take_texts(options.wkt)


def to_count(layer: reading.Layer, options: Options) -> list[str]:
    """Returns the columns of decimal numbers that may become whole ones."""
    names = dict.fromkeys(name for _, name in layer.columns() if layer.is_real(name) and name not in options.steps)
    return list(names) if options.scales else []


def take_decimals(layers: Sequence[reading.Layer], options: Options) -> None:
    """Has columns of decimal numbers become whole ones: those of one name in several layers with the same step, so that they can be compared."""
    if not options.scales:
        return
    found: list[tuple[reading.Layer, str, grids.Places]] = []
    for layer in layers:
        found += [(layer, name, places) for name, places in layer.places(to_count(layer, options)).items() if places.step]
    for it, name, own in found:
        its = (places for _, other, places in found if other.lower() == name.lower())
        finest = max(its, key=lambda places: places.places)
        it.steps[name] = finest.step if own.greatest * finest.unit < 2**62 else own.step


def system_named(osr: Any, code: str) -> Any:
    """Returns the reference system of a code, None of an empty one. Stopped where GDAL has none."""
    try:
        return systems.named(osr, code) if code else None
    except ValueError as error:
        raise Stopped(str(error), USAGE) from None


def move(layers: Sequence[reading.Layer], osr: Any, options: Options) -> None:
    """Has layers be in the reference system that is asked for. Stopped where one says none."""
    source, target = (system_named(osr, it) for it in (options.of, options.to))
    for it in layers:
        if it.reference is None and source is not None:
            it.take_reference(source)
    for it in layers if target is not None else ():
        if it.reference is None:
            raise Stopped(f"{it.source.name}: {it.name} says no reference system, so it can't be moved to {options.to}: --from names it", USAGE)
        if systems.are_same(it.reference, target):
            it.take_reference(target)
            continue
        try:
            it.move(target)
        except ValueError as error:
            raise Stopped(f"{it.source.name}: {it.name}: {error}", DATA) from None


def need_one_system(layers: Sequence[reading.Layer], folder: folders.Folder, osr: Any, say: Say) -> Any:
    """Returns the reference system of all layers and of the folder, None where nothing says one. Stopped where there are two.

    Two in one source were always taken: a line says so.
    """
    known = [(folder.name, it) for it in folder.systems(osr)]
    known += [(it.source.name, it.reference) for it in layers if it.reference is not None]
    for whose, system in known[1:]:
        if not systems.are_same(known[0][1], system):
            if folder.found or len({it.source.name for it in layers}) > 1:
                one, other = (systems.label(it) for it in (known[0][1], system))
                raise Stopped(f"{known[0][0]} is in {one}, and {whose} in {other}: --to {one if folder.found else 'EPSG:N'} moves all to one system", USAGE)
            say("the layers have different coordinate systems: don't compare their geometries")
            break
    for it in layers:
        if known and it.reference is None:
            say(f"{it.label}: it says no reference system, and is taken to be in {systems.label(known[0][1])} as the others")
    return known[0][1] if known else None


class Chosen(NamedTuple):
    """The grid of an import: whether its step was given, or has each coordinate exactly, and the extent of all where that is known."""

    grid: grids.Grid
    is_given: bool
    is_exact: bool
    extent: Optional[proposing.Extent]


def grid_of(layers: Sequence[reading.Layer], folder: folders.Folder, system: Any, options: Options, say: Say) -> Chosen:
    """Returns the grid that the folder has, or is given, or is proposed; a line says of one that is proposed what it is.

    Stopped where the folder has another one than is given.
    """
    step, origin = ("" if it == AUTO else it for it in (options.grid, options.origin))
    if folder.found:
        found = grids.Grid.of_file(folder.found)
        spelled = found.spelled[0], ",".join(found.spelled[1])
        given = grids.Grid(step or spelled[0], (origin or spelled[1]).split(","))
        if (given.x.step, given.x.origin, given.y.origin) != (found.x.step, found.x.origin, found.y.origin):
            raise Stopped(f"{folder.name} has the grid --grid {spelled[0]} --origin {spelled[1]}, which new tables get too", USAGE)
        return Chosen(needed(found), True, False, None)
    if step and options.origin != AUTO:
        return Chosen(needed(grids.Grid(step, (origin or "0,0").split(","))), True, False, None)
    (found, is_exact), extent = stepping.proposal(layers, systems.metres(system), step, origin)
    exactly, unit = " exactly" * bool(is_exact and extent), systems.unit(system)
    needed(found)
    say(f"{options_of_grid(found)} takes all{exactly} (steps of {found.spelled[0]} {unit}" + ("" if extent else "; there is no geometry") + ")")
    return Chosen(found, bool(step), is_exact, extent)


def needed(grid: grids.Grid) -> grids.Grid:
    """Returns a grid that the library takes. Stopped where it has too many digits."""
    try:
        grid.check()
    except ValueError as error:
        raise Stopped(f"{options_of_grid(grid)}: {error}", DATA) from None
    return grid


def options_of_grid(grid: grids.Grid) -> str:
    """Returns the options that give a grid."""
    return f"--grid {grid.spelled[0]} --origin {','.join(grid.spelled[1])}"


def names_of(layers: Sequence[reading.Layer], folder: folders.Folder, options: Options) -> tuple[list[str], set[str]]:
    """Returns the names of the new tables, and those of the tables that they replace, in lower case. Stopped where none are to be."""
    names = rules.Names()
    found, there = [names.of(it.name, "layer") for it in layers], folder.tables()
    replaced = {it.lower() for it in found} & there
    if replaced and not options.replaces:
        name = next(it for it in found if it.lower() in there)
        raise Stopped(f"{folder.name} has a table {name} already: --replace makes it anew", USAGE)
    folders.most_tables(folder, replaced, found)
    return found, replaced


class Opened(NamedTuple):
    """The layers that are asked for, those of them that have geometries, and the reference system of these."""

    layers: list[reading.Layer]
    shaped: list[reading.Layer]
    system: Any


def opened(sources: Sequence[str], folder: folders.Folder, options: Options, found: reading.Modules, say: Say) -> Opened:
    """Opens the sources."""
    layers = chosen([reading.Source(found, it) for it in sources], options)
    take_columns(layers, options)
    shaped = [it for it in layers if it.shapes]
    move(shaped, found.osr, options)
    return Opened(layers, shaped, need_one_system(shaped, folder, found.osr, say))


def means_of(found: reading.Modules, grid: grids.Grid, options: Options, name: str) -> Means:
    """Returns what an import works with."""
    reducer = functools.lru_cache(maxsize=1)(lambda: snapping.reducer(found))
    return Means(found, checking.Checker(), grid, options.invalid, options.is_parted, options.steps, name, options.compares, bool(options.rejects), reducer)


def made(layers: Sequence[reading.Layer], names: Sequence[str], means: Means, folder: folders.Folder, key: str) -> tuple[Import, list[str]]:
    """Makes the tables of layers, and returns the import and what it has to say."""
    said: list[str] = []
    with Import(means, folder, key, said.append) as work:
        for it, table in zip(layers, names):
            work.take(it, table)
        if means.compares:
            work.compare()
        work.finish_all()
    return work, said


def imported(sources: Sequence[str], folder: folders.Folder, options: Options, means: tuple[str, Say], is_last: bool) -> Imported:
    """Imports sources into a folder, which takes its place at the end. `is_last` says that a signal behind that is too late."""
    (name, say), found = means, reading.modules()
    with reading.warnings_said(found, say):
        checking.Checker()
        layers, shaped, system = opened(sources, folder, options, found, say)
        names, replaced = names_of(layers, folder, options)
        for layer in shaped:
            layer.to_count = to_count(layer, options)
        lines: list[str] = []
        grid = grid_of(shaped, folder, system, options, lines.append)
        take_decimals(layers, options)
        # Both may read the records, of which GDAL may warn: the line on the grid comes after that, whichever of them does.
        for it in lines:
            say(it)
        for layer in shaped:
            layer.to_count = ()
        folder.begin(replaced)
        with_grid = means_of(found, grid.grid, options, name)
        work, said = made(layers, names, with_grid, folder, options.key)
        if not grid.is_given and not grid.is_exact and work.invalid:
            other = stepping.better(shaped, with_grid, sum(it["left_out"] for it in work.layers), grid.extent)
            if other:
                say(f"{options_of_grid(other)} is taken instead: it refuses fewer records")
                work, said = made(layers, names, with_grid._replace(grid=other), folder, options.key)
        for it in said:
            say(it)
        if options.rejects:
            rejects.write(found, work.rejected, system, options.rejects)
        if grid.is_given:
            stepping.need_fine(work.broken, shaped, grid.grid, say, options.takes_anyway)
        if options.changed:
            changes.as_layer(found, work.compared, system, options.changed)
        folder.put(is_last)
        return Imported(work.means.grid, work.layers)


def shown_steps(sources: Sequence[str], options: Options, name: str, say: Say) -> Iterator[stepping.Row]:
    """Yields what each step does to sources, of which nothing is imported."""
    found, folder = reading.modules(), folders.Nowhere()
    with reading.warnings_said(found, say):
        _, shaped, system = opened(sources, folder, options, found, say)
        grid = grid_of(shaped, folder, system, options, say)
        extent = grid.extent or reading.extent(shaped)
        yield from stepping.rows(shaped, means_of(found, grid.grid, options, name), extent)


def import_sources(
    sources: Sequence[str], out: str, options: Options = Options(), name: str = NAME, say: Optional[Say] = None, is_last: bool = False,
) -> Imported:
    """Imports sources into one folder, which is new, or one that an import made and that gets more tables.

    The folder is there as a whole at the end, or is as it was. What there is to say goes to `say`, by default a line each on standard
    error that begins with `name`, as the line of progress does. `is_last` says that nothing is done behind it: signals are too late then, once
    the folder is there. Stopped, with the status that a command would end with, where an option
    is wrong, or what it needs isn't there; OSError and RuntimeError where a file can't be read or written.
    """
    try:
        check(options)
    except ValueError as error:
        raise Stopped(str(error), USAGE) from None
    try:
        need_apart(sources)
        folder = folders.Folder(out)
        with contextlib.closing(folder):
            return imported(sources, folder, options, (name, say or functools.partial(endings.say, name)), is_last)
    except (reading.Missing, LibraryError) as error:
        raise Stopped(str(error).removeprefix("sfq: "), MISSING) from None


def check(options: Options) -> None:
    """ValueError where an option is wrong."""
    origin = options.origin if options.origin not in ("", AUTO) else "0,0"
    if origin.count(",") != 1:
        raise ValueError(f"--origin: {options.origin!r} isn't X,Y")
    try:
        grids.Grid("1" if options.grid == AUTO else options.grid, origin.split(",")).check()
    except ValueError as error:
        raise ValueError(f"--grid or --origin: {error}") from None
    for option, code in (("--to", options.to), ("--from", options.of)):
        if code and not systems.CODE.fullmatch(code):
            raise ValueError(f"{option}: {code!r} isn't the code of a reference system, such as EPSG:25832")
    if options.rejects and not changes.format_of(options.rejects):
        raise ValueError(f"--rejects: {options.rejects!r} ends with none of {', '.join(changes.FORMATS)}")
    if options.changed and (not options.compares or not changes.format_of(options.changed)):
        why = "--no-relations compares nothing" if not options.compares else f"{options.changed!r} doesn't end in {', '.join(changes.FORMATS)}"
        raise ValueError(f"--changed: {why}")
    if options.xy and (len(options.xy) != 2 or not all(options.xy) or options.xy[0] == options.xy[1]):
        raise ValueError(f"--xy: {','.join(options.xy)!r} isn't two columns, X,Y")


# ---- the command ----


def add_options(found: argparse.ArgumentParser, many: Mapping[str, Any] = MANY) -> None:
    """Adds the options of an import to those of a command. `many` says how one takes several values."""
    add = found.add_argument
    add("--grid", metavar="STEP", default=AUTO,
        help="the size of a step of the grid, in units of the source: 0.01; auto proposes one that reaches all (auto)")
    add("--origin", metavar="X,Y", default="", help="where the grid's 0 0 is in the source, or auto (0,0; auto if the step is)")
    add("--to", metavar="EPSG:N", default="", help="move all geometries to this reference system")
    add("--from", metavar="EPSG:N", default="", dest="of", help="the reference system of sources that don't give one")
    add("--layer", metavar="NAME", default=[], **many, help="the layers to import (all)")
    add("--key", metavar="COLUMN", default="", help="the column of whole numbers that is the key (the FID)")
    add("--scale", metavar="COLUMN=STEP", default=[], **many,
        help="turn a column into whole numbers, which count steps of this size: width=0.01; none leaves decimal numbers as texts")
    add("--columns", metavar="NAME", default=[], **many, help="the columns that tables get, beside the key and the geometries (all)")
    add("--xy", metavar="X,Y", default="", help="make points from two columns of a CSV file: lon,lat")
    add("--wkt", metavar="COLUMN", default="", help="make geometries from a column of well-known text of a CSV file")
    add("--invalid", choices=INVALID, default=INVALID[0],
        help="what to do with records that sfq refuses: snap rounds those anew that rounding broke, and cuts areas whose rings touch (snap)")
    # Z and M are always dropped; earlier versions did so where this was given.
    add("--flat", action="store_true", help=argparse.SUPPRESS)
    add("--part", action="store_true", help="split a record with more than 10,000 positions into several rows")
    add("--anyway", action="store_true", help="import also with a step that breaks more than 1%% of the records")
    add("--no-relations", action="store_true", help="don't compare which geometries meet before and after rounding, which takes time")


def parser() -> argparse.ArgumentParser:
    found = argparse.ArgumentParser(prog=NAME, description="Makes the tables of sfq from any vector sources that GDAL reads.",
                                    epilog="Statuses: 0 done, 1 GDAL or the library isn't there, 2 the command line, 4 a record under "
                                    "--invalid stop or --strict, or no record was kept, 6 files, 7 memory. The manual: man sfq-import.")
    add = found.add_argument
    add("source", metavar="SOURCE", nargs="+", help="a file, folder or database that GDAL reads, as ogrinfo takes it")
    add("--out", metavar="DIR", default="", help="a folder that isn't there yet, is empty, or gets more tables")
    add("--steps", action="store_true",
        help="import nothing, and print what the step and coarser ones do: records refused, greatest shift, relations changed")
    add_options(found)
    add("--replace", action="store_true", help="replace tables that the folder already has")
    add("--changed", metavar="FILE", default="",
        help="write the pairs whose relation rounding changed as a layer of points: .gpkg, .geojson or .fgb")
    add("--rejects", metavar="FILE", default="",
        help="write the records that are left out as a layer, with the code and the place of each fault: .gpkg, .geojson or .fgb")
    add("--strict", action="store_true", help="end with status 4 if a record was left out")
    add("--allow-empty", action="store_true", help="end with status 0 even if no record is kept")
    add("--version", action="version", version=f"{NAME} {__version__}")
    return found


def steps_of(words: list[str], key: str) -> dict[str, str]:
    """Returns the step of each column that the words name. ValueError where one is wrong."""
    found: dict[str, str] = {}
    for it in words:
        if it == NO_SCALE:
            continue
        column, _, step = it.rpartition("=")
        if not column or column in found:
            raise ValueError(f"{it!r} isn't COLUMN=STEP" if not column else f"{column} has two steps")
        if column == key:
            raise ValueError(f"{column} is the key")
        found[column] = grids.Scale(step).spelled
    return found


def joined(words: Sequence[str]) -> list[str]:
    """Returns the words of a command. An origin that begins with a minus is an option's value too."""
    found: list[str] = []
    for it in words:
        if found and found[-1] == "--origin":
            found[-1] = f"--origin={it}"
        else:
            found.append(it)
    return found


def options_of(given: argparse.Namespace, found: argparse.ArgumentParser) -> Options:
    """Returns the options of the import that a command was given. One that is wrong ends the command."""
    try:
        steps = steps_of(given.scale, given.key)
    except ValueError as error:
        found.error(f"argument --scale: {error}")
    options = Options(
        grid=given.grid, origin=given.origin, to=given.to, of=given.of, layers=given.layer, key=given.key, steps=steps, scales=NO_SCALE not in given.scale,
        columns=given.columns, xy=given.xy.split(",") if given.xy else (), wkt=given.wkt, invalid=given.invalid, is_parted=given.part,
        replaces=getattr(given, "replace", False), compares=not given.no_relations, changed=getattr(given, "changed", ""), rejects=getattr(given, "rejects", ""),
        takes_anyway=given.anyway,
    )
    try:
        check(options)
    except ValueError as error:
        found.error(f"argument {error}")
    return options


def parsed(words: list[str]) -> tuple[argparse.Namespace, Options]:
    """Returns the words of the command, and the options of the import."""
    found = parser()
    given = found.parse_args(joined(words))
    if given.steps == bool(given.out):
        found.error("--steps imports nothing, so it takes no --out" if given.steps else "the following arguments are required: --out")
    if given.changed and os.path.realpath(given.changed) in map(os.path.realpath, given.source):
        found.error(f"--changed {given.changed} is a source")
    return given, options_of(given, found)


def run(given: argparse.Namespace, options: Options) -> int:
    """Does an import, or prints the table of steps, and returns the status. Stopped where an import keeps too little."""
    if given.steps:
        try:
            sys.stdout.write(stepping.table(list(shown_steps(given.source, options, NAME, functools.partial(endings.say, NAME)))))
            sys.stdout.flush()
        except (reading.Missing, LibraryError) as error:
            raise Stopped(str(error).removeprefix("sfq: "), MISSING) from None
        return DONE
    found = import_sources(given.source, given.out, options, is_last=True)
    if not given.allow_empty and not found.count("rows"):
        why = f"{given.out}/left-out.csv says why" if found.count("records") else "the source has none"
        raise Stopped(f"no record was kept: {why}; --allow-empty takes that", DATA)
    if given.strict and found.count("left_out"):
        count = found.count("left_out")
        raise Stopped(f"{number_of(count, 'record was', 'records were')} left out: {given.out}/left-out.csv says why", DATA)
    return DONE


def main(words: Optional[list[str]] = None) -> int:
    """Runs the command, and returns its status."""
    return endings.ended(NAME, lambda: run(*parsed(sys.argv[1:] if words is None else words)), (OSError, RuntimeError))
