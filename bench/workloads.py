"""The usual workloads: what each does, at which sizes, and the commands of `sfq`, its floor and its best peer.

A floor (bench/floor) is a short C program that does one workload and nothing else, so it says how little the workload can take.
"""

import math
import pathlib
import random
import shutil
import sys
from typing import Callable, NamedTuple, Optional, Union

import compare
import joins
import relate
import windows
from peers import FOLDER, SHAPES, TABLES, compiled
from timing import PROGRAM, instructions, measure

FLOORS = FOLDER / "floor"


class Command(NamedTuple):
    """The words of a program, and the file that is its standard input."""

    words: list[str]
    given: Union[str, pathlib.Path] = "/dev/null"


class Workload(NamedTuple):
    """What is measured: its name, its sizes, what makes the files of a size in a folder, the commands of each program in it, the
    peer's name, and how README names a size, where it is there."""

    label: str
    sizes: tuple[int, ...]
    make: Callable[[pathlib.Path, int], object]
    commands: Callable[[pathlib.Path], dict[str, Command]]
    peer: str = "GEOS"
    named: Optional[Callable[[int], str]] = None

    def name_of(self, size: int) -> str:
        """How README names a size, where it is there."""
        return self.named(size) if self.named else ""


class Programs(NamedTuple):
    """`sfq`, the floors by their names, the peers over GEOS, and what isn't there of these, with the packages that bring it."""

    sfq: str
    floors: dict[str, str]
    tables: str
    shapes: str
    lacking: dict[str, str]


def built_programs(folder: pathlib.Path, sfq: str) -> Programs:
    """Compiles the floors and the peers beside a program `sfq`."""
    floors = {it.stem: compiled(it, folder) for it in FLOORS.glob("*.c")}
    tables, shapes = (compiled(it, folder, "-lgeos_c") for it in (TABLES, SHAPES))
    lacking = {}
    if not all(floors.values()):
        lacking["the C program"] = "gcc libc6-dev"
    if not tables or not shapes:
        lacking["GEOS"] = "gcc libc6-dev libgeos-dev"
    if shutil.which("sqlite3") is None:
        lacking["sqlite3"] = "sqlite3"
    # What isn't there isn't run.
    return Programs(sfq, {name: it or "" for name, it in floors.items()}, tables or "", shapes or "", lacking)


def filtering(programs: Programs) -> Workload:
    """Numbers and texts of one table."""
    def commands(folder: pathlib.Path) -> dict[str, Command]:
        return {
            "sfq": Command([str(PROGRAM), "run", "schema.sql", ".", compare.QUERY]),
            "floor": Command([programs.floors["filter"], "t.csv"]),
            "peer": Command(compare.sqlite_command()),
        }

    named = "{:,} rows filtered by a number and a text".format
    return Workload("filter, numbers and texts", (1_000, 10_000, 100_000), compare.make_table, commands, "sqlite3", named)


def windowing(programs: Programs, positions: int) -> Workload:
    """Points within a polygon."""
    text = windows.window(positions)

    def commands(folder: pathlib.Path) -> dict[str, Command]:
        made = windows.commands(folder, programs.tables, text)
        floor = Command([programs.floors["window"], "pt.csv", "window"])
        return {"sfq": Command(made["sfq"]), "floor": floor, "peer": Command(made["geos"])}

    named = "{:,} points within a polygon of 100 positions".format if positions == 100 else None
    return Workload(f"points in {positions:,} positions", (1_000, 10_000, 100_000), windows.make_points, commands, named=named)


def joining(programs: Programs, label: str, floor: str, task: str) -> Workload:
    """One of the joins that joins.py has."""
    case = next(it for it in joins.CASES if it.label == label)
    second = "first" if case.second is None else "second"
    sizes = {(it[0] if case.first is joins.points else it[0] ** 2): it for it in case.sizes}

    def make(folder: pathlib.Path, size: int) -> None:
        joins.make_tables(folder / "tables", case, sizes.get(size))
        for it in (folder / "tables").iterdir():
            it.rename(folder / it.name)

    def commands(folder: pathlib.Path) -> dict[str, Command]:
        made = joins.commands(programs.tables, case.predicate, second)
        tables = ["first.csv"] if case.second is None else ["first.csv", "second.csv"]
        return {"sfq": Command(made["sfq"]), "floor": Command([programs.floors[floor], *tables]), "peer": Command(made["geos"])}

    parcels = {size: it[1] ** 2 for size, it in sizes.items()}
    return Workload(label, tuple(sizes), make, commands, named=lambda size: task.format(size, parcels=parcels[size]))


def corner(x: int, y: int, distance: float, turn: float) -> tuple[int, int]:
    """The position that is so far from another, in the direction of a part of a full turn."""
    return x + round(distance * math.cos(2 * math.pi * turn)), y + round(distance * math.sin(2 * math.pi * turn))


def make_polygons(folder: pathlib.Path, count: int) -> None:
    """Writes a table of stars of 20 positions, the closing one counted, each in a cell of its own."""
    chance = random.Random(count)
    side = math.isqrt(count) + 1
    cell = 2 * joins.SPAN // side
    texts = []
    for k in range(count):
        x, y = (-joins.SPAN + cell * place + cell // 2 for place in (k % side, k // side))
        corners = [corner(x, y, cell * (0.2 + 0.25 * chance.random()), i / 19) for i in range(19)]
        texts.append(joins.text_of("POLYGON", corners + corners[:1]))
    joins.write_table(folder, "area", texts)
    (folder / "schema.sql").write_text("CREATE TABLE area (id INTEGER PRIMARY KEY, geom POLYGON);")


def checking(programs: Programs) -> Workload:
    """Polygons that are read and tested."""
    def commands(folder: pathlib.Path) -> dict[str, Command]:
        return {
            "sfq": Command([str(PROGRAM), "check", "schema.sql", "."]),
            "floor": Command([programs.floors["check_polygons"], "area", "area.csv"]),
            "peer": Command([programs.tables, "check", "area", "area.csv"]),
        }

    named = "{:,} polygons of 20 positions checked".format
    return Workload("check polygons of 20", (100, 1_000, 10_000), make_polygons, commands, named=named)


def relating(programs: Programs) -> Workload:
    """Two stars over one another, read, tested and related."""
    def make(folder: pathlib.Path, size: int) -> None:
        texts = relate.many_crossings(max(size, 12))
        for name, text in ("first", texts[0]), ("second", texts[1]), ("input", "\n".join(texts)):
            (folder / name).write_text(f"{text}\n")

    def commands(folder: pathlib.Path) -> dict[str, Command]:
        return {
            "sfq": Command([str(PROGRAM), "relate", "@first", "@second"]),
            "floor": Command([programs.floors["stars"], "input"]),
            "peer": Command([programs.shapes, "relate", "0"], folder / "input"),
        }

    named = "two stars of {:,} positions read, checked and related".format
    return Workload("matrix of two stars", (100, 1_000, 9_998), make, commands, named=named)


def workloads(programs: Programs) -> list[Workload]:
    """All of them, in the table's order."""
    return [
        filtering(programs),
        *(windowing(programs, positions) for positions in windows.POSITIONS),
        joining(programs, "points in parcels", "points_in_parcels", "{:,} points in {parcels:,} parcels"),
        joining(programs, "parcels that touch", "parcels_that_touch", "{:,} parcels that touch one another"),
        checking(programs),
        relating(programs),
    ]


def commands_in(folder: pathlib.Path, workload: Workload, programs: Programs) -> dict[str, Command]:
    """What runs in a folder, of the programs that are there."""
    found = workload.commands(folder)
    found["sfq"].words[0] = programs.sfq
    lacking = {"floor": "the C program" in programs.lacking, "peer": workload.peer in programs.lacking}
    return {who: it for who, it in found.items() if not lacking.get(who)}


class Measure:
    """How costs are taken: instructions, or nanoseconds of processor time, the least of some runs."""

    def __init__(self, is_time: bool, repeats: int) -> None:
        self.is_time, self.repeats = is_time, repeats

    def costs(self, commands: dict[str, Command], folder: pathlib.Path) -> dict[str, float]:
        """The cost of each command; the programs in turn."""
        if not self.is_time:
            return {who: instructions(it.words, folder, it.given) for who, it in commands.items()}
        runs: dict[str, list[float]] = {who: [] for who in commands}
        for _ in range(self.repeats):
            for who, it in commands.items():
                runs[who].append(measure(it.words, folder, it.given)[1] * 1e9)
        return {who: min(times) for who, times in runs.items()}


def outputs(commands: dict[str, Command], folder: pathlib.Path) -> tuple[dict[str, bytes], int]:
    """What each program prints, and the peak kilobytes of sfq."""
    printed, peak = {}, 0
    for who, it in commands.items():
        _, _, taken = measure(it.words, folder, it.given)
        printed[who] = (folder / "output").read_bytes()
        peak = taken if who == "sfq" else peak
    return printed, peak


def compare_outputs(printed: dict[str, bytes], name: str) -> None:
    """Says where sfq and the floor print different texts."""
    if printed["sfq"] != printed.get("floor", printed["sfq"]):
        print(f"{name}: sfq and the floor print different texts", file=sys.stderr)


def folder_of(room: pathlib.Path, workload: Workload, size: int) -> pathlib.Path:
    """A folder with the files of a size."""
    folder = room / f"{workload.label.replace(' ', '-')}-{size}"
    folder.mkdir()
    workload.make(folder, size)
    return folder


def ratios(workload: Workload, beyond: dict[str, float]) -> list[str]:
    """What `sfq` takes beyond its start-up of what the peer and the floor take, as README has it; what isn't there is named."""
    peer = f"{beyond['sfq'] / beyond['peer']:.2f}, {workload.peer}" if "peer" in beyond else f"no {workload.peer}"
    return [peer, f"{beyond['sfq'] / beyond['floor']:.1f}" if "floor" in beyond else "no gcc"]
