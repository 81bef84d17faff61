#!/usr/bin/env python3
"""Measures `sfq-scale` beside one run of `sfq`: what splitting costs, what Dask costs, and how time grows with rows.

Two queries over a made-up town (examples/town.py): how many trees are within parcels, and which parcels touch. It starts a
Dask cluster on this machine with one worker and one with four, and alternates their runs and, up to 100,000 rows, those of
`sfq` alone. It compares the answers, and prints Markdown tables, the last with what is aimed at. Times are seconds of
processor time, the least of several runs, but for the wall clock, which means something only where four processors are
free. `splitting` is `sfq-tiles`, `sfq` its runs over all tiles, `cluster` what Dask's scheduler and workers take meanwhile,
and `client` what Python does here, loading of Dask included. Sizes are powers of ten: of trees, with 3 parcels to 10 trees.

`--write` writes the tables into bench/README.md, and draws time over rows. Where fewer than 10,000,000 trees were measured,
the last size there, ten times the largest, is an estimate: it goes on as time grew to that one. It needs the programs of
./build and ./build --tiles, and the packages python3-distributed and python3-dask. It is no test.
"""
import argparse
import hashlib
import pathlib
import re
import runpy
import subprocess
import sys
import tempfile
import time
from typing import Any, Iterator, Optional

import plots
from timing import PROGRAM, README, ROOT, Table, exponent, figure, measure, read_options

runpy.run_path(str(ROOT / "tools" / "paths.py"))
import scale_cluster

SCALE = ROOT / "bindings" / "python" / "bin" / "sfq-scale"
TILES = ROOT / "crates" / "sfq_tiles" / "out" / "sfq_tiles"
PICTURE = ROOT / "docs" / "pictures" / "scale.svg"
MOST_ROWS = 100_000
QUERIES = {
    "trees within parcels": "SELECT COUNT(*) FROM tree t JOIN parcel p ON ST_Within(t.place, p.geom)",
    "parcels that touch": "SELECT p.id, q.id FROM parcel p JOIN parcel q ON ST_Touches(p.geom, q.geom)",
}
PARTS = ("splitting", "sfq", "cluster", "client")
# The most that is aimed at: of the ratios of processor time below, in the order of the table of aims.
MOST_SPLITTING, MOST_DASK, MOST_WORKERS = 1.0, 1.0, 1.3
# From so many rows on the part of Dask is looked at: below, its start is most of it. More trees are measured once.
LARGE = 1_000_000
# Time is drawn up to so many trees; what isn't measured of that is an estimate.
MOST_DRAWN = 10_000_000
# Of so many workers each can have a run where there are as many runs.
WORKERS = 4


def hash_of(answer: bytes) -> bytes:
    return hashlib.sha256(answer).digest()


class Scaled:
    """A run by a cluster: its seconds by parts, its wall clock, its longest part and its answer."""

    def __init__(self, given: argparse.Namespace, folder: pathlib.Path, text: str, cluster: scale_cluster.Cluster, rows: int) -> None:
        words = [SCALE, "run", "--sfq", given.sfq, "--tiles", given.tiles, "--scheduler", cluster.address, "--explain", "--rows", rows]
        begun, before = time.monotonic(), cluster.seconds()
        ran = subprocess.run(
            [*map(str, words), "--", f"{folder}/schema.sql", folder, text], capture_output=True, check=False,
            env=scale_cluster.environment({"TMPDIR": str(given.room)}),
        )
        self.wall = time.monotonic() - begun
        if ran.returncode:
            sys.exit(ran.stderr.decode())
        said = ran.stderr.decode()
        self.seconds = {it: float(re.findall(rf"seconds {it} ([\d.]+)", said)[0]) for it in ("splitting", "sfq", "client")}
        self.seconds["cluster"] = cluster.seconds() - before
        self.longest = float(re.findall(r"longest ([\d.]+)", said)[0])
        self.runs = int(re.findall(r"runs (\d+)", said)[0])
        self.answer = hash_of(ran.stdout)

    @property
    def total(self) -> float:
        return sum(self.seconds.values())


def best(runs: list[Scaled]) -> Scaled:
    """The run of least processor time, with the least of each part and of the wall clock."""
    found = min(runs, key=lambda it: it.total)
    found.seconds = {it: min(run.seconds[it] for run in runs) for it in PARTS}
    found.wall = min(it.wall for it in runs)
    return found


def make_town(folder: pathlib.Path, trees: int) -> tuple[int, int]:
    """Makes a town, unless it is there, and returns the rows of its two tables."""
    parcels = trees * 3 // 10
    if not folder.exists():
        words = [sys.executable, str(ROOT / "examples" / "town.py"), "--parcels", str(parcels), "--trees", str(trees), str(folder)]
        subprocess.run(words, check=True)
    return trees, parcels


def measured(
    given: argparse.Namespace, text: str, towns: pathlib.Path, clusters: dict[int, scale_cluster.Cluster]
) -> Iterator[tuple[tuple[int, int], Optional[tuple[float, ...]], dict[int, Scaled]]]:
    """Measures a query at each size: that of the town, the seconds of one run or None, and the runs of each cluster."""
    for trees in given.sizes:
        folder = towns / str(trees)
        rows = make_town(folder, trees)
        whole: list[tuple[float, float]] = []
        runs: dict[int, list[Scaled]] = {number: [] for number in clusters}
        for _ in range(given.repeats if trees <= LARGE else 1):
            if max(rows) <= MOST_ROWS:
                whole.append(measure([given.sfq, "run", "schema.sql", ".", text], folder)[:2])
            for number, cluster in clusters.items():
                runs[number].append(Scaled(given, folder, text, cluster, given.rows))
        answers = {it.answer for each in runs.values() for it in each} | ({hash_of((folder / "output").read_bytes())} if whole else set())
        if len(answers) != 1:
            sys.exit(f"the answers of {text} differ at {trees:,} trees")
        one = tuple(min(it[at] for it in whole) for at in (0, 1)) if whole else None
        yield rows, one, {number: best(it) for number, it in runs.items()}


class Point:
    """What was measured of a query at a size: the seconds of one run, or None, and the runs of the smallest and the largest cluster."""

    def __init__(self, label: str, size: int, one: Optional[float], runs: dict[int, Scaled]) -> None:
        self.label, self.size, self.one = label, size, one
        self.first, self.last = runs[min(runs)], runs[max(runs)]
        self.dask = self.first.seconds["cluster"] + self.first.seconds["client"]

    @property
    def name(self) -> str:
        return f"{self.label}, {self.size:,}"

    @property
    def ratios(self) -> tuple[float, float, float]:
        """Of processor time: splitting to that of sfq in all tiles, that of Dask and Python to it, all of the largest cluster to the smallest."""
        return self.first.seconds["splitting"] / self.first.seconds["sfq"], self.dask / self.first.seconds["sfq"], self.last.total / self.first.total


def measure_all(given: argparse.Namespace, towns: pathlib.Path, clusters: dict[int, scale_cluster.Cluster]) -> tuple[Table, dict[str, list[Point]]]:
    """Measures all queries, prints the first table, and returns it with the points of each query."""
    costs = Table(["rows", "one run", "splitting", "sfq in tiles", "splitting / sfq", "cluster", "client", "Dask / sfq", "growth"])
    points: dict[str, list[Point]] = {}
    for label, text in QUERIES.items():
        for (trees, parcels), one, runs in measured(given, text, towns, clusters):
            it = Point(label, trees + parcels if "tree" in label else parcels, one[1] if one else None, runs)
            before = points[label][-1] if label in points else None
            points.setdefault(label, []).append(it)
            costs.add([
                it.name, figure(it.one) if it.one else "too large", figure(it.first.seconds["splitting"]), figure(it.first.seconds["sfq"]),
                f"{it.ratios[0]:.2f}", figure(it.first.seconds["cluster"]), figure(it.first.seconds["client"]), f"{it.ratios[1]:.2f}",
                exponent((before.size, before.first.total) if before else None, (it.size, it.first.total)),
            ])
    return costs, points


def compare_workers(points: list[Point]) -> Table:
    """Prints the table of one worker beside several, and returns it."""
    table = Table(["rows", "runs", "processor, 1 worker", "4 workers", "ratio", "wall, 1 worker", "4 workers", "ratio", "longest run"])
    for it in points:
        table.add([
            it.name, str(it.first.runs), figure(it.first.total), figure(it.last.total), f"{it.ratios[2]:.2f}", figure(it.first.wall),
            figure(it.last.wall), f"{it.last.wall / it.first.wall:.2f}", figure(it.last.longest),
        ])
    return table


def compare_aims(points: list[Point]) -> Table:
    """Prints the table of aims, and returns it."""
    table, large = Table(["aim", "at most", "measured", "met"]), [it for it in points if it.size >= LARGE]
    shared = [it for it in points if it.last.runs >= WORKERS]
    for aim, most, found in (
        ("splitting / sfq in tiles", MOST_SPLITTING, [it.ratios[0] for it in points]),
        (f"Dask / sfq, from {LARGE:,} rows on", MOST_DASK, [it.ratios[1] for it in large]),
        ("processor time of 4 workers / 1 worker, where there are 4 runs or more", MOST_WORKERS, [it.ratios[2] for it in shared]),
    ):
        met = "yes" if max(found, default=0) <= most else f"{sum(it <= most for it in found)} of {len(found)}"
        table.add([aim, f"{most:.1f}", f"{min(found):.2f} to {max(found):.2f}" if found else "not measured", met if found else ""])
    return table


def lines(points: list[Point], drawn: int) -> dict[str, list[Any]]:
    """Returns the lines of a panel: those of one run and of sfq-scale; and an estimate at ten times the last size, unless so many trees are drawn."""
    scaled = [(it.size, it.first.total) for it in points]
    growth = float(exponent(scaled[-2], scaled[-1])) if len(scaled) > 1 else 1
    size, total = scaled[-1]
    estimate = [] if drawn >= MOST_DRAWN else [(10 * size, total * 10 ** max(growth, 1))]
    return {"sfq": [(it.size, it.one) for it in points], "peer": scaled, "estimate": estimate}


def main() -> None:
    parser = argparse.ArgumentParser(description=__doc__, formatter_class=argparse.RawDescriptionHelpFormatter)
    parser.add_argument("--sfq", default=str(PROGRAM))
    parser.add_argument("--tiles", default=str(TILES))
    parser.add_argument("--rows", type=int, default=50_000, help="rows of a tile")
    parser.add_argument("--repeats", type=int, default=3)
    parser.add_argument("--workers", type=int, nargs="+", default=[1, 4], help="the workers of each cluster")
    parser.add_argument("--sizes", type=int, nargs="+", default=[10_000, 100_000, 1_000_000], help="trees")
    parser.add_argument("--room", help="a folder for tables and tiles")
    given = read_options(parser)
    clusters = {}
    try:
        for number in given.workers:
            clusters[number] = scale_cluster.Cluster(number)
        with tempfile.TemporaryDirectory(prefix="sfq-towns-", dir=given.room) as room:
            costs, points = measure_all(given, pathlib.Path(room), clusters)
    finally:
        for it in clusters.values():
            it.stop()
    every = [it for each in points.values() for it in each]
    tables = costs, compare_workers(every), compare_aims(every)
    if given.write:
        for table in tables:
            table.write_into(README)
        PICTURE.write_text(plots.times([(label, lines(each, max(given.sizes))) for label, each in points.items()]))


if __name__ == "__main__":
    main()
