"""Runs sfq and sfq-tiles on this machine."""
import csv
import hashlib
import io
import os
import resource
import shutil
import subprocess
import sys
from typing import Iterable, Optional

from sfq.geometry.faults import LibraryError

from . import schema
from .faults import CLUSTER, FILES, MEMORY, MISUSE, TABLE, Ended, ended

# What sfq-tiles says where a part can't be written.
UNWRITABLE = b"sfq: out unwritable\n"
# What makes each program in a checkout, and where it is then.
CHECKOUT = os.path.realpath(os.path.join(os.path.dirname(os.path.realpath(__file__)), *[os.pardir] * 3))
BUILT = {
    "sfq": ("./build", f"{CHECKOUT}/crates/sfq/out/sfq"),
    "sfq-tiles": ("./build --tiles", f"{CHECKOUT}/crates/sfq_tiles/out/sfq_tiles"),
}


def find(name: str, named: Optional[str]) -> str:
    """Returns the path of a program: the one that is named, or the one beside this program, in this checkout, or on the path."""
    makes, built = BUILT[name]
    beside = os.path.dirname(os.path.realpath(sys.argv[0]))
    places = [named] if named else [f"{beside}/{name}", built, name]
    found = next((path for path in (shutil.which(it) for it in places) if path), None)
    if not found:
        option = "--tiles" if name == "sfq-tiles" else "--sfq"
        where = "" if named else f" beside sfq-scale or on the path: {makes} makes it in a checkout, and {option} names another place"
        raise ended(MISUSE, f"there is no program {named or name}{where}")
    return os.path.abspath(found)


def sum_of(path: str) -> str:
    """Returns the SHA-256 of a file."""
    with open(path, "rb") as file:
        return hashlib.sha256(file.read()).hexdigest()


def write(path: str, text: str) -> None:
    os.makedirs(os.path.dirname(path), exist_ok=True)
    with open(path, "w", encoding="utf-8", newline="") as file:
        file.write(text)


class Programs:
    """The two programs, and a folder for what they read and write."""

    def __init__(self, sfq: str, tiles: str, room: str) -> None:
        self.sfq, self.tiles, self.room = sfq, tiles, room
        self.seconds = 0.0

    def call(self, words: list[str]) -> tuple[bytes, bytes, int]:
        """Runs a program, and returns what it wrote on its two streams and its status."""
        ran = subprocess.run(words, stdin=subprocess.DEVNULL, capture_output=True)
        return ran.stdout, ran.stderr, ran.returncode

    def run(self, given: str, folder: str, text: str) -> tuple[bytes, bytes, int]:
        """Runs a query by sfq."""
        return self.call([self.sfq, "run", "--", given, folder, text])

    def tables(self, given: str) -> list[schema.Table]:
        """Returns the tables of a schema, which sfq has to accept."""
        empty = f"{self.room}/nothing"
        os.makedirs(empty, exist_ok=True)
        out, err, status = self.call([self.sfq, "check", "--", given, empty])
        if status and not (status == 6 and err.endswith(b" unreadable\n") and err != b"sfq: schema unreadable\n"):
            raise Ended(status, err)
        with open(given, encoding="utf-8", errors="surrogateescape") as file:
            text = file.read()
        try:
            return schema.read(text)
        except LibraryError as error:
            raise ended(MISUSE, str(error).removeprefix("sfq: ")) from None

    def without_rows(self, name: str, tables: Iterable[schema.Table]) -> tuple[str, str]:
        """Makes a schema and tables without rows, and returns their paths."""
        folder = f"{self.room}/{name}"
        write(f"{folder}/schema.sql", "".join(it.text for it in tables))
        for it in tables:
            write(f"{folder}/tables/{it.name}.csv", it.header)
        return f"{folder}/schema.sql", f"{folder}/tables"

    def split(self, given: str, folder: str, to: str, rows: int, parts: Iterable[str]) -> list[dict[str, str]]:
        """Runs sfq-tiles, and returns the records of its output by their names. A fault of a table ends the run as it ends sfq-tiles."""
        words = ["--rows", str(rows), *(it for part in parts for it in ("--part", part))]
        before = resource.getrusage(resource.RUSAGE_CHILDREN)
        out, err, status = self.call([self.tiles, *words, "--", given, folder, to])
        after = resource.getrusage(resource.RUSAGE_CHILDREN)
        self.seconds += after.ru_utime + after.ru_stime - before.ru_utime - before.ru_stime
        if err == UNWRITABLE:
            raise ended(FILES, f"the parts of the tables can't be written in {self.room}: is it full?")
        if status in (TABLE, FILES, MEMORY):
            raise Ended(status, err)
        if status:
            raise ended(CLUSTER, f"{self.tiles} ended with status {status}: is it of this version? {err.decode(errors='replace').strip()}")
        return list(csv.DictReader(io.StringIO(out.decode())))
