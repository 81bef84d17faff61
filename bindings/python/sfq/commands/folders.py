"""The folder of an import: one that is new, or one that is there and gets more tables. It is as it was until everything is done.

All of it is made in a room beside the folder, whose files are links to those of the folder that stay as they are. At the end the two
change places in one step. So whatever ends an import, a reader finds the folder as it was or as it will be.
"""
from __future__ import annotations

import contextlib
import csv
import ctypes
import errno
import fcntl
import json
import os
import shutil
import stat
import sys
import tempfile
from typing import Any, Iterator, Sequence, NamedTuple

from ..geometry import grids
from ..layers import systems
from ..tables import parts, rules, statements
from . import outputs
from .endings import DATA, FILES, USAGE, Stopped, held, too_late

# The file of the pairs whose relation rounding changed. No table has its name.
CHANGED = "changed-relations.csv"
# The columns of left-out.csv that say which record it is and why; left_out.py has the others.
LEFT_OUT = ["layer", "record", "fid", "reason", "done", "table"]
# What renameat2 of Linux takes for paths from the folder of the process on, and for two that change places.
HERE, EXCHANGE = -100, 2


def is_free(folder: str) -> bool:
    """Whether a folder isn't there or is empty."""
    return not os.path.lexists(folder) or os.path.isdir(folder) and not os.listdir(folder)


class Folder:
    """A folder that an import makes or adds to."""

    def __init__(self, path: str) -> None:
        """Stopped where there is a folder that no import made, or one that another import adds to."""
        self.name, self.path = path, os.path.realpath(path)
        self.room, self.lock, self.mode = "", -1, 0o700
        # What grid.json says of the folder that is there, else nothing.
        self.found: dict[str, Any] = {}
        self.schema = ""
        if not is_free(self.path):
            self.read()

    def read(self) -> None:
        """Takes the folder that is there for this import alone, and reads what it says of its tables."""
        if not os.path.isfile(f"{self.path}/grid.json") or not os.path.isfile(f"{self.path}/schema.sql"):
            raise Stopped(f"{self.name} isn't an empty folder, nor one that sfq-import made", USAGE)
        self.lock = os.open(self.path, os.O_RDONLY | os.O_DIRECTORY)
        try:
            fcntl.flock(self.lock, fcntl.LOCK_EX | fcntl.LOCK_NB)
            is_alone = os.path.samestat(os.fstat(self.lock), os.stat(self.path))
        except BlockingIOError:
            is_alone = False
        if not is_alone:
            raise Stopped(f"another import is adding to {self.name}: wait for its end", FILES)
        try:
            with open(f"{self.path}/grid.json", encoding="utf-8") as file:
                self.found = json.load(file)
            with open(f"{self.path}/schema.sql", encoding="utf-8") as file:
                self.schema = file.read()
            grids.Grid.of_file(self.found)
            for it in self.found["layers"]:
                it["table"], it["layer"], it["coordinate_system"], it["columns"]
        except (KeyError, TypeError, ValueError) as error:
            raise Stopped(f"{self.name}/grid.json isn't one that sfq-import made: {error!r}", DATA) from None

    @property
    def layers(self) -> list[dict[str, Any]]:
        """What grid.json says of the tables that are there."""
        return list(self.found.get("layers", []))

    def systems(self, osr: Any) -> list[Any]:
        """Returns the reference systems of the tables that are there, as GDAL has them."""
        try:
            return [systems.of_text(osr, it["coordinate_system"]["wkt"]) for it in self.layers if it["coordinate_system"]]
        except (KeyError, TypeError, ValueError) as error:
            raise Stopped(f"{self.name}/grid.json isn't one that sfq-import made: {error}", DATA) from None

    def tables(self) -> set[str]:
        """Returns the names of the tables that are there, in lower case: those that have a file, or a place in schema.sql."""
        files = {it[:-4].lower() for it in os.listdir(self.path) if it.endswith(".csv")} if self.found else set()
        return files - {"left-out", CHANGED[:-4]} | {it.name.lower() for it in statements.tables(self.schema)} | {it["table"].lower() for it in self.layers}

    def begin(self, replaced: set[str]) -> None:
        """Makes the room, with what stays of the folder that is there: all but the tables of these names, which are in lower case."""
        above = os.path.dirname(self.path)
        os.makedirs(above, exist_ok=True)
        with held():
            self.room = tempfile.mkdtemp(prefix=outputs.NEW, dir=above)
        if not self.found:
            self.mode = 0o777 & ~outputs.mask()
            return
        self.mode = stat.S_IMODE(os.stat(self.path).st_mode)
        shutil.copytree(self.path, self.room, symlinks=True, copy_function=linked, dirs_exist_ok=True)
        # Until it takes its place nobody else writes into it.
        os.chmod(self.room, 0o700)
        for it in os.listdir(self.room):
            if it.endswith(".csv") and it[:-4].lower() in replaced:
                os.remove(f"{self.room}/{it}")
        self.found["layers"] = [it for it in self.layers if it["table"].lower() not in replaced]
        relations = self.found.get("relations", [])
        self.found["relations"] = [it for it in relations if not replaced & {name.lower() for name in it["tables"]}]
        for table in statements.tables(self.schema):
            if table.name.lower() in replaced:
                self.schema = without(self.schema, table)

    def kept_of_left_out(self, more: Sequence[str]) -> Iterator[list[str]]:
        """Returns the records of left-out.csv of the tables that stay, with these further columns, which older ones lack.

        A record of an import that wrote no tables gets the table of its layer.
        """
        path = f"{self.path}/left-out.csv"
        if not self.found or not os.path.isfile(path):
            return
        tables = {it["layer"]: it["table"] for it in self.layers}
        known = set(tables.values())
        csv.field_size_limit(sys.maxsize)
        with open(path, newline="", encoding="utf-8") as file:
            for row in csv.DictReader(file):
                row.setdefault("table", tables.get(row["layer"], ""))
                if row["table"] in known:
                    yield [row[it] for it in LEFT_OUT] + [row.get(it) or "" for it in more]

    def new(self, name: str) -> str:
        """Returns the path of a file that is to be written. What is there by this name is a link to a file that has to stay."""
        path = f"{self.room}/{name}"
        with contextlib.suppress(FileNotFoundError):
            os.remove(path)
        return path

    def put(self, is_last: bool = False) -> None:
        """Has the room take the place of the folder, in one step, which a signal comes before or is too late for. `is_last` says that all
        signals behind it are too late, as nothing is to be done then."""
        self.sync()
        os.chmod(self.room, self.mode)
        with held(is_last=True):
            if self.found:
                exchange(self.room, self.path)
                shutil.rmtree(self.room, ignore_errors=True)
            else:
                try:
                    os.rename(self.room, self.path)
                except OSError as error:
                    if error.errno not in (errno.ENOTEMPTY, errno.EEXIST):
                        raise
                    raise Stopped(f"{self.name} was made by another meanwhile", FILES) from None
            self.room = ""
            if is_last:
                too_late()

    def sync(self) -> None:
        """Waits until the files that are new are on the disk: those that stay are links to files that were there before."""
        for at, _, names in os.walk(self.room):
            for it in names:
                path = os.path.join(at, it)
                if not os.path.islink(path) and os.stat(path).st_nlink == 1:
                    outputs.sync(path)
            outputs.sync(at)

    def close(self) -> None:
        """Removes the room, where it hasn't taken its place, and lets other imports have the folder."""
        with held():
            if self.room:
                shutil.rmtree(self.room, ignore_errors=True)
            if self.lock >= 0:
                os.close(self.lock)


class Nowhere(Folder):
    """No folder, where nothing is written."""

    def __init__(self) -> None:
        self.name, self.path, self.room, self.lock, self.mode = "", "", "", -1, 0o700
        self.found, self.schema = {}, ""


def linked(source: str, target: str) -> None:
    """Makes a link to a file, or where there can be none a copy of it."""
    try:
        os.link(source, target, follow_symlinks=False)
    except OSError:
        shutil.copy2(source, target, follow_symlinks=False)


def exchange(one: str, other: str) -> None:
    """Has two folders change places: by one step of the system, or where it has none by three."""
    call = getattr(ctypes.CDLL(None, use_errno=True), "renameat2", None)
    if call and call(HERE, os.fsencode(one), HERE, os.fsencode(other), EXCHANGE) == 0:
        return
    number = ctypes.get_errno()
    if call and number not in (errno.EINVAL, errno.ENOSYS):
        raise OSError(number, os.strerror(number), other)
    aside = f"{one}-before"
    os.rename(other, aside)
    try:
        os.rename(one, other)
    except OSError:
        os.rename(aside, other)
        raise
    os.rename(aside, one)


def without(schema: str, table: statements.Table) -> str:
    """Returns a schema without a table, and without the `;` behind that."""
    text = table.text.rstrip(";\n")
    before, _, behind = schema.partition(text)
    return before.rstrip() + "\n" + behind.lstrip().removeprefix(";").removeprefix("\n")


def ended(schema: str) -> str:
    """Returns a schema that has a `;` behind its last table, so that one more can come."""
    last = [it for it in parts.parts(schema) if it.kind != parts.END][-1:]
    ends = [it.end for it in last if it.kind != parts.SEMICOLON]
    return f"{schema[: ends[0]]};{schema[ends[0] :]}" if ends else schema


class Made(NamedTuple):
    """What an import made: its grid, what grid.json says of each new table and of the relations that rounding changed, and the schemas."""

    made_by: str
    grid: tuple[str, tuple[str, ...]]
    layers: list[dict[str, Any]]
    relations: list[dict[str, Any]]
    schemas: list[str]


def written(folder: Folder, made: Made) -> None:
    """Writes grid.json and schema.sql of a folder: what stays, and then the tables that are new."""
    step, origin = made.grid
    found = {
        **folder.found, "made_by": made.made_by, "step": step, "origin": list(origin), "layers": [*folder.layers, *made.layers],
        "relations": [*folder.found.get("relations", []), *made.relations],
    }
    with open(folder.new("grid.json"), "w", encoding="utf-8") as file:
        file.write(json.dumps(found, ensure_ascii=False, indent=1) + "\n")
    first = folder.schema or "-- Made by sfq-import; grid.json has the step and the origin of the grid.\n"
    with open(folder.new("schema.sql"), "w", encoding="utf-8") as file:
        file.write("\n".join([ended(first), *made.schemas]))


def most_tables(folder: Folder, replaced: set[str], names: list[str]) -> None:
    """Stopped where a folder would have more tables than sfq takes."""
    count = len({it.name.lower() for it in statements.tables(folder.schema)} - replaced) + len(names)
    if not 0 < count <= rules.MOST_TABLES:
        raise Stopped(f"{count} layers, and sfq takes 1 to {rules.MOST_TABLES}: choose by --layer", USAGE)
