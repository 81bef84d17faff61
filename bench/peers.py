"""What measures beside peers share: the commands of the peers, the lines that compare them with `sfq`, and the programs over GEOS."""

import argparse
import os
import pathlib
import re
import shutil
import subprocess
import sys
import time
from typing import Optional, Sequence

from timing import PROGRAM, ROOT, Table, exponent, figure, instructions, measure, ratios

import bindings

FOLDER = pathlib.Path(__file__).resolve().parent
TABLES, SHAPES = FOLDER / "geos_tables.c", FOLDER / "geos_peer.c"
LIBRARY = ROOT / "bindings" / "c" / "out" / "libsfq.a"

# Sets sqlite3's separators. From 3.50 on it reads `\n` as a line feed in quotes alone.
SEPARATOR = '.separator "," "\\n"'
# A row is measured for as many seconds at the least, so that short runs are measured often.
SECONDS = 8


def is_ready() -> None:
    """Ends the program where something that it needs isn't there."""
    if not PROGRAM.exists():
        sys.exit("the program isn't built: run ./build")
    for tool, package in (("gcc", "gcc libgeos-dev"), ("sqlite3", "sqlite3 libsqlite3-mod-spatialite")):
        if shutil.which(tool) is None:
            sys.exit(f"{tool} isn't installed: apt-get install {package}")


def compiled(source: pathlib.Path, folder: pathlib.Path, *libraries: str) -> Optional[str]:
    """Compiles a program, and returns its path; None where gcc, a header or a library isn't there."""
    if shutil.which("gcc") is None:
        return None
    program = folder / source.stem
    words = ["gcc", "-O2", "-o", str(program), str(source), *libraries]
    ran = subprocess.run(words, stderr=subprocess.PIPE, text=True, env={**os.environ, "LC_ALL": "C"})
    if ran.returncode == 0:
        return str(program)
    if re.search(r"\.h: No such file|cannot find -l", ran.stderr):
        return None
    sys.exit(f"gcc can't compile {source.name}: {(re.findall('.*error.*', ran.stderr) or ['it was ended'])[0]}")


def build_geos(folder: pathlib.Path) -> pathlib.Path:
    """Compiles the peer over GEOS, and returns its path."""
    program = folder / "geos_tables"
    subprocess.run(["gcc", "-O2", "-o", str(program), str(TABLES), "-lgeos_c"], check=True)
    return program


def build_beside_geos(name: str, folder: pathlib.Path) -> pathlib.Path:
    """Compiles the program of this name over the C library and GEOS, and returns its path."""
    if not LIBRARY.exists():
        sys.exit("the library isn't there: run ./build --library once")
    program = folder / name
    words = ["gcc", "-O2", "-Wall", "-o", program, FOLDER / f"{name}.c", f"-I{ROOT}/bindings/c", LIBRARY, "-lgeos_c"]
    subprocess.run([str(it) for it in words], check=True)
    return program


def build_extension(folder: pathlib.Path) -> pathlib.Path:
    """Compiles the extension of SQLite over the C libraries, and returns its path."""
    archives = [LIBRARY, LIBRARY.with_name("libsfq_tables.a")]
    if not all(it.exists() for it in archives):
        sys.exit("the libraries aren't there: run ./build --library once")
    extension = folder / "sfq0.so"
    words = ["gcc", "-O2", "-fPIC", "-shared", "-fvisibility=hidden", "-o", extension, *bindings.of_sqlite()]
    subprocess.run([str(it) for it in [*words, f"-I{ROOT}/bindings/c", *archives, "-Wl,--exclude-libs,ALL"]], check=True)
    return extension


def spatialite_command(tables: Sequence[str], *statements: str) -> list[str]:
    """sqlite3 with SpatiaLite, which imports the CSV of each table, its geometry as text, and runs the statements."""
    script = [".load mod_spatialite", ".mode csv"]
    for table in tables:
        script.append(f"CREATE TABLE {table} (id INTEGER PRIMARY KEY, geom TEXT);")
        script.append(f".import --skip 1 {table}.csv {table}")
    *made, answer = statements
    return ["sqlite3", ":memory:", *script, *made, ".headers on", SEPARATOR, answer]


def add_options(parser: argparse.ArgumentParser) -> None:
    """The options that the measures share."""
    parser.add_argument("--repeats", type=int, default=9, help="runs of each command (9)")
    parser.add_argument("--instructions", action="store_true", help="count instructions of sfq and GEOS in place of time")


def table_of_rows(title: str, options: argparse.Namespace, ours: str = "sfq") -> Table:
    """The table whose rows a comparison adds, with what is asked for of our program, which is named."""
    if options.instructions:
        peers = ["GEOS, millions", "ratio"]
        return Table([title, f"{ours}, millions", *peers, "growth"], peers)
    peers = ["SpatiaLite ms", "ratio", "GEOS ms", "ratio", "to the best"]
    return Table([title, f"{ours} ms", *peers, "growth", f"{ours}, SpatiaLite, GEOS MB"], peers)


class Comparison:
    """The rows of a case, from size to size: `sfq` beside its peers, each in one process, start-up left out."""

    def __init__(self, commands: dict[str, list[str]], bare: pathlib.Path, options: argparse.Namespace, table: Table) -> None:
        """Takes the commands that run in a folder with tables without rows, which is the start-up of each program."""
        self.starts, self.bare, self.options, self.table = commands, bare, options, table
        self.before: Optional[tuple[float, float]] = None

    def measured(self, commands: dict[str, list[str]], folder: pathlib.Path) -> dict[str, tuple[float, float, int]]:
        """Of each program the processor seconds of its start-up and of its command, and peak kilobytes. Times are the least of
        several runs, more of short ones, the programs in turn and each start-up beside its command, so that what else
        runs on the machine meets all of them."""
        starts: dict[str, list[float]] = {who: [] for who in commands}
        times: dict[str, list[float]] = {who: [] for who in commands}
        peaks: dict[str, list[int]] = {who: [] for who in commands}
        begun = time.monotonic()
        turns = 0
        while turns < self.options.repeats or time.monotonic() < begun + SECONDS:
            for who, command in commands.items():
                starts[who].append(measure(self.starts[who], self.bare)[1])
                _, processor, peak = measure(command, folder)
                times[who].append(processor)
                peaks[who].append(peak)
            turns += 1
        return {who: (min(starts[who]), min(times[who]), max(peaks[who])) for who in commands}

    def counted(self, who: str, commands: dict[str, list[str]], folder: pathlib.Path) -> float:
        """The instructions of a program's command beyond its start-up, in millions."""
        return (instructions(commands[who], folder) - instructions(self.starts[who], self.bare)) / 1e6

    def add_row(self, label: str, rows: int, commands: dict[str, list[str]], folder: pathlib.Path) -> None:
        """Measures each command in a folder, and adds what was asked for to the table."""
        if self.options.instructions:
            ours, theirs = (self.counted(who, commands, folder) for who in ("sfq", "geos"))
            growth = exponent(self.before, (rows, ours))
            self.table.add([label, figure(ours), figure(theirs), f"{ours / theirs:.2g}", growth])
            self.before = rows, ours
        else:
            self.add_times(label, rows, commands, folder)

    def add_times(self, label: str, rows: int, commands: dict[str, list[str]], folder: pathlib.Path) -> None:
        """Adds processor times, ratios, the exponent of growth in rows, and memory, and compares the answers."""
        times, peaks, answers = {}, [], {}
        for who, (start, processor, peak) in self.measured(commands, folder).items():
            times[who] = max(processor - start, 1e-5) * 1e3
            peaks.append(f"{peak / 1024:.0f}")
        for who, command in commands.items():
            measure(command, folder)
            answers[who] = set((folder / "output").read_text().splitlines()[1:])
        ours, *peers = times.values()
        growth = exponent(self.before, (rows, ours))
        self.table.add([label, figure(ours), *ratios(ours, peers), growth, ", ".join(peaks)])
        self.before = rows, ours
        for who in commands:
            apart = answers["sfq"] ^ answers[who]
            if apart:
                print(f"sfq and {who} differ in {len(apart)} rows, such as {min(apart)}", file=sys.stderr)
