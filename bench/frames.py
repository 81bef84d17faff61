#!/usr/bin/env python3
"""Measures joins of `sfq.geopandas` beside those of GeoPandas over the same frames, in one process.

Points in land parcels (100,000 in a grid of 100 a side), by `within` and `intersects`, points whose coordinates are doubles with all
their digits, and the parcels that touch one another. Each join begins with frames that have no index yet, so what is measured has what
shapely hands over, the index, the pairs and the frame of the result. It compares the pairs, of which rounding may change a few of the
doubles', and prints a Markdown table: processor seconds of both, the ratio, and how much of the time of `sfq` goes to writing the shapes
as well-known binary or arrays, to reading them, to finding the pairs and to the rest. Times are the least of several runs, which
alternate. The step of the grid is proposed.

It needs GeoPandas with an index of its own (Debian's packages python3-geopandas and python3-rtree, which are for
/usr/bin/python3) and the library (run ./build --library). It is no test: the gate doesn't run it.
"""

import argparse
import functools
import os
import random
import runpy
import time
import warnings
from typing import Any, Callable, Sequence

from joins import SPAN, parcels, points
from peers import LIBRARY
from timing import README, ROOT, Table, read_options

runpy.run_path(str(ROOT / "tools" / "paths.py"))
os.environ.setdefault("SFQ_LIBRARY", str(LIBRARY.with_name("libsfq.so.0")))

import geopandas
import sfq.geopandas
from sfq.geometry import library
from sfq.layers import frames
from shapely import wkt


def doubles(count: int) -> list[str]:
    """Points anywhere, by doubles with all their digits."""
    chance = random.Random(count)
    return [f"POINT({chance.uniform(-SPAN, SPAN)!r} {chance.uniform(-SPAN, SPAN)!r})" for _ in range(count)]


# What is joined, by which predicate, by what the points are made, how many there are, and the number of parcels on a side.
CASES = (
    ("points within parcels", "within", points, 100_000, 100),
    ("points that intersect parcels", "intersects", points, 100_000, 100),
    ("points of doubles within parcels", "within", doubles, 100_000, 100),
    ("parcels that touch", "touches", points, 0, 100),
)
# How many pairs of a thousand rounding may change.
MOST_CHANGED = 1


class Parts:
    """Notes how long calls take that parts of a join are made of."""

    def __init__(self) -> None:
        self.spent: dict[str, float] = {}

    def around(self, module: Any, name: str, label: str) -> None:
        """Has a function of a module be timed."""
        call = getattr(module, name)

        def timed(*words: Any, **more: Any) -> Any:
            begun = time.process_time()
            found = call(*words, **more)
            self.spent[label] = self.spent.get(label, 0) + time.process_time() - begun
            return found

        setattr(module, name, timed)


def frame(shapes: Sequence[Any]) -> Any:
    return geopandas.GeoDataFrame({"id": range(len(shapes))}, geometry=list(shapes))


# The least time of a join, the parts of that one, and the pairs.
Best = tuple[float, dict[str, float], list[tuple[Any, Any]]]


def timed(join: Callable[..., Any], left: Sequence[Any], right: Sequence[Any], parts: Parts) -> Best:
    """Returns the time of a join of new frames, its parts and the pairs."""
    one = frame(left)
    other = one if right is left else frame(right)
    parts.spent = {}
    begun = time.process_time()
    joined = join(one, other)
    return time.process_time() - begun, parts.spent, sorted(zip(joined.index, joined.index_right))


def least(repeats: int, joins: Sequence[Callable[..., Any]], left: Sequence[Any], right: Sequence[Any], parts: Parts) -> list[Best]:
    """Returns what takes least time of some runs of each join, in turn."""
    best: list[Best] = [timed(it, left, right, parts) for it in joins]
    for _ in range(1, repeats):
        for at, it in enumerate(joins):
            found = timed(it, left, right, parts)
            best[at] = found if found[0] < best[at][0] else best[at]
    return best


def main() -> None:
    parser = argparse.ArgumentParser(description=__doc__.splitlines()[0])
    parser.add_argument("--repeats", type=int, default=3, help="how often each is measured (3)")
    options = read_options(parser)
    parts = Parts()
    parts.around(frames, "binaries", "writing")
    parts.around(library, "KeptMany", "reading")
    parts.around(sfq.geopandas.Index, "query", "pairs")
    # GeoPandas 1 joins in C; the table of each is one of its own.
    which = "before GeoPandas 1" if int(geopandas.__version__.split(".")[0]) < 1 else "from GeoPandas 1 on"
    table = Table([f"join, {which}", "rows", "sfq", "GeoPandas", "ratio", "writing", "reading", "pairs", "the rest"])
    warnings.simplefilter("ignore", sfq.geopandas.RoundingWarning)
    for label, predicate, made, count, side in CASES:
        cells = [wkt.loads(it) for it in parcels(side)]
        left = [wkt.loads(it) for it in made(count)] if count else cells
        joins = [functools.partial(it, predicate=predicate) for it in (sfq.geopandas.sjoin, geopandas.sjoin)]
        own, theirs = least(options.repeats, joins, left, cells, parts)
        changed = len(set(own[2]) ^ set(theirs[2]))
        if changed * 1_000 > len(own[2]) * MOST_CHANGED * (made is doubles):
            raise SystemExit(f"{label}: the pairs differ")
        of_parts = [own[1].get(it, 0) for it in ("writing", "reading", "pairs")]
        seconds = [own[0], theirs[0], own[0] / theirs[0], *of_parts, own[0] - sum(of_parts)]
        table.add([label, f"{count or side * side:,} and {side * side:,}", *(f"{it:.2f}" for it in seconds)])
    if options.write:
        table.write_into(README, is_of_peers=True)


if __name__ == "__main__":
    main()
