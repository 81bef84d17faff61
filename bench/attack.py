#!/usr/bin/env python3
"""Looks for queries and shapes on which `sfq` grows faster than their size, or takes longer than a peer, by drawing them at random.

Each input has a number, and is drawn from the seed and this number: a query of the language over one table or two with its forms of
data (columns of numbers and texts, geometries of a kind), or one or two shapes, of those of `bad_shapes.py` and of some more, moved,
sheared, shuffled or turned round. It is made larger and larger until `sfq` takes some hundredths of a second. Then its growth is the
exponent by which processor time grows from a quarter of the last size, a size being what is read and what is printed. Peers that can
run the same are asked at that size: sqlite3 and DuckDB for queries of numbers and texts, SpatiaLite with an R*-tree and GEOS by its C
interface for those of geometries, GEOS for shapes. What is printed is compared with what they print.

An input is noted that grows by more than `--growth`, takes longer than `--behind` times the best peer, or whose answer differs from a
peer's. Times vary with what else runs on the machine, so valgrind counts the instructions of `sfq` and of the best peer for such an
input, at a size and a quarter of it, and the input stays where its growth or its ratio is still above these. At the end comes a table,
what is furthest behind first, and then for each number the commands that make its files and run `sfq` on them. What was noted so far is
shown too where the program is interrupted.

It ends after `--minutes`, or with the last number of `--numbers`. `--list` says what would be drawn. `--only NUMBER` shows one again,
and keeps its files in the folder that `--keep` names.

It needs Python's standard library and the built program, or the one that `--program` names. Peers that aren't there are left out: run
it in a folder of newer ones by `--peers`. It is no test: the gate doesn't run it. Its small parts are tested by tests/test_attack.py.
"""

import argparse
import csv
import io
import os
import pathlib
import random
import re
import shlex
import shutil
import signal
import sys
import tempfile
import time
from typing import Callable, Iterable, Iterator, Mapping, NamedTuple, Optional, Sequence, TypeVar

import bad_shapes
import worst
from peers import SEPARATOR, SHAPES, TABLES, compiled
from timing import PROGRAM, Table, exponent, figure, instructions, probe, read_options

Item = TypeVar("Item")
Found = TypeVar("Found")
# What makes the values of so many rows.
Forms = Callable[[random.Random, int], Sequence[object]]

# How many rows or positions an input has at first, by what it grows, and at which seconds it is large enough.
ROWS, MOST_ROWS, POSITIONS, MOST_POSITIONS, TIMES, ENOUGH = 500, 64_000, 150, 9_900, 4, 0.06
SPAN = 1_000_000
# The seconds below which a time is of no use, and the processor seconds of one run of `sfq`.
LEAST = 0.002
SECONDS = 5
# The processor seconds of a run at most of which instructions are counted, which takes some fifty times as long.
COUNTED = 0.5
# The ratio of time to a peer from which on the peer's instructions are counted.
NEAR = 0.6


# ---- forms of data ----

def shuffled(dice: random.Random, items: Iterable[Item]) -> list[Item]:
    """The items in another order."""
    items = list(items)
    dice.shuffle(items)
    return items


# Each makes the numbers of so many rows; an empty text is NULL.
NUMBERS: dict[str, Forms] = {
    "each once": lambda dice, rows: shuffled(dice, range(rows)),
    "ascending": lambda dice, rows: range(rows),
    "of a tenth as many": lambda dice, rows: [dice.randrange(max(1, rows // 10)) for _ in range(rows)],
    "of ten": lambda dice, rows: [dice.randrange(10) for _ in range(rows)],
    "one alone": lambda dice, rows: [7] * rows,
    "half of them one": lambda dice, rows: [7 if dice.random() < 0.5 else at for at in range(rows)],
    "NULL but for a tenth": lambda dice, rows: ["" if dice.random() < 0.9 else at for at in range(rows)],
}
TEXTS: dict[str, Forms] = {
    "each once": lambda dice, rows: [f"t{at}" for at in shuffled(dice, range(rows))],
    "of a tenth as many": lambda dice, rows: [f"t{dice.randrange(max(1, rows // 10))}" for _ in range(rows)],
    "of eight": lambda dice, rows: [f"t{dice.randrange(8)}" for _ in range(rows)],
    "long, with one beginning": lambda dice, rows: [f"{'the same beginning, ' * 4}{at}".replace(",", ";") for at in shuffled(dice, range(rows))],
    "one alone": lambda dice, rows: ["t7"] * rows,
    "texts of points": lambda dice, rows: [f"POINT({dice.randrange(rows)} 0)" for _ in range(rows)],
}


def around(dice: random.Random) -> tuple[int, int]:
    """A position anywhere."""
    return dice.randint(-SPAN, SPAN), dice.randint(-SPAN, SPAN)


def box(x: int, y: int, across: int, up: int) -> str:
    """The text of a rectangle from its lower left corner on."""
    return f"POLYGON(({x} {y},{x + across} {y},{x + across} {y + up},{x} {y + up},{x} {y}))"


def in_cells(rows: int, shape: Callable[[int, int, int], str]) -> list[str]:
    """A shape for each cell of a square grid, by its lower left corner and its side."""
    across = max(1, int(rows**0.5 + 0.999))
    side = 2 * SPAN // across
    return [shape(-SPAN + side * (at % across), -SPAN + side * (at // across), side) for at in range(rows)]


def line(*positions: tuple[int, int]) -> str:
    """The text of a line."""
    return "LINESTRING(" + ",".join(f"{x} {y}" for x, y in positions) + ")"


def small_lines(dice: random.Random, rows: int) -> list[str]:
    """Short lines anywhere."""
    step = 1 + SPAN // max(1, int(rows**0.5))
    return [line((x, y), (x + dice.randint(1, step), y + dice.randint(-step, step))) for x, y in (around(dice) for _ in range(rows))]


GEOMETRIES: dict[str, Callable[[random.Random, int], list[str]]] = {
    "points anywhere": lambda dice, rows: ["POINT(%d %d)" % around(dice) for _ in range(rows)],
    "points in one place": lambda dice, rows: ["POINT(0 0)"] * rows,
    "points of a line": lambda dice, rows: [f"POINT({at} {at})" for at in shuffled(dice, range(rows))],
    "points near one another": lambda dice, rows: [f"POINT({dice.randrange(100)} {dice.randrange(100)})" for _ in range(rows)],
    "squares side by side": lambda dice, rows: in_cells(rows, lambda x, y, side: box(x, y, side, side)),
    "squares apart": lambda dice, rows: in_cells(rows, lambda x, y, side: box(x, y, side // 2, side // 2)),
    "squares in one another": lambda dice, rows: [box(-at, -at, 2 * at, 2 * at) for at in shuffled(dice, range(1, rows + 1))],
    "small squares anywhere": lambda dice, rows: [box(*around(dice), *[1 + SPAN // max(1, int(rows**0.5))] * 2) for _ in range(rows)],
    "bars across all": lambda dice, rows: [box(-SPAN, 3 * at, 2 * SPAN, 2) for at in shuffled(dice, range(rows))],
    "short lines": small_lines,
    "diagonals that cross": lambda dice, rows: [line((at, 0), (SPAN - at, SPAN)) for at in shuffled(dice, range(rows))],
    "diagonals side by side": lambda dice, rows: [line((at, 0), (SPAN + at, SPAN)) for at in shuffled(dice, range(rows))],
    "level lines of one height": lambda dice, rows: [line((2 * at, 0), (2 * at + 3, 0)) for at in shuffled(dice, range(rows))],
    "twelve corners": lambda dice, rows: in_cells(rows, lambda x, y, side: star(x + side // 2, y + side // 2, side // 2)),
    "three points each": lambda dice, rows: ["MULTIPOINT((%d %d),(%d %d),(%d %d))" % (*around(dice), *around(dice), *around(dice)) for _ in range(rows)],
    "three squares each": lambda dice, rows: [bad_shapes.polygons([[square(*around(dice), 900)] for _ in range(3)]) for _ in range(rows)],
    "three lines each": lambda dice, rows: [bad_shapes.lines([[around(dice), around(dice)] for _ in range(3)]) for _ in range(rows)],
    "combs side by side": lambda dice, rows: in_cells(rows, lambda x, y, side: bad_shapes.polygon(comb(x, y, side // 24, 5))),
    "L-shapes in one another": lambda dice, rows: [bad_shapes.polygon(bad_shapes.ell(at, rows)) for at in shuffled(dice, range(rows))],
    "long lines of ten positions": lambda dice, rows: [line(*(around(dice) for _ in range(10))) for _ in range(rows)],
    "one star among small squares": lambda dice, rows: beside(dice, rows, bad_shapes.polygon(bad_shapes.star_ring(max(4, min(rows, 4_000))))),
    "one of many squares among small squares": lambda dice, rows: beside(dice, rows, bad_shapes.squares_shuffled(min(rows, 900))),
    "one of many points among small squares": lambda dice, rows: beside(dice, rows, bad_shapes.points([around(dice) for _ in range(min(rows, 4_000))])),
    "one line of many among small squares": lambda dice, rows: beside(dice, rows, line(*(around(dice) for _ in range(max(2, min(rows, 900)))))),
    "NULL but for a tenth": lambda dice, rows: ["" if dice.random() < 0.9 else "POINT(%d %d)" % around(dice) for _ in range(rows)],
    "EMPTY but for a tenth": lambda dice, rows: ["POINT EMPTY" if dice.random() < 0.9 else "POINT(%d %d)" % around(dice) for _ in range(rows)],
}
# The columns, each with its forms.
COLUMNS: Sequence[tuple[str, Mapping[str, Forms]]] = (("n", NUMBERS), ("t", TEXTS), ("g", GEOMETRIES))


def square(x: int, y: int, side: int) -> list[tuple[int, int]]:
    """The corners of a square from its lower left one on."""
    return [(x, y), (x + side, y), (x + side, y + side), (x, y + side)]


def comb(x: int, y: int, step: int, teeth: int) -> list[tuple[int, int]]:
    """The corners of a comb whose teeth point up, from its lower left one on."""
    corners = [(x, y), (x + 4 * step * teeth, y), (x + 4 * step * teeth, y + step)]
    for at in reversed(range(teeth)):
        left, right = x + (4 * at + 1) * step, x + (4 * at + 3) * step
        corners += [(right, y + step), (right, y + 9 * step), (left, y + 9 * step), (left, y + step)]
    return [*corners, (x, y + step)]


def beside(dice: random.Random, rows: int, large: str) -> list[str]:
    """A large shape in one row, and small squares in the others."""
    return shuffled(dice, [large, *GEOMETRIES["small squares anywhere"](dice, rows - 1)])


def star(x: int, y: int, far: int) -> str:
    """The text of a polygon of twelve corners round a position."""
    around_it = [(2, 0), (1, 1), (1, 2), (0, 1), (-1, 2), (-1, 1), (-2, 0), (-1, -1), (-1, -2), (0, -1), (1, -2), (1, -1)]
    corners = [f"{x + far * a // 3} {y + far * b // 3}" for a, b in around_it]
    return f"POLYGON(({','.join(corners + corners[:1])}))"


WINDOWS = (box(-SPAN // 2, -SPAN // 2, SPAN, SPAN), box(0, 0, 1000, 1000), star(0, 0, SPAN), line((-SPAN, -SPAN), (SPAN, SPAN)), "POINT(0 0)")


# ---- queries ----

# The predicates, and whether they hold of geometries alone whose envelopes meet.
PREDICATES = {
    "ST_Intersects": True, "ST_Within": True, "ST_Contains": True, "ST_Touches": True, "ST_Crosses": True, "ST_Overlaps": True,
    "ST_Equals": True, "ST_Disjoint": False,
}  # fmt: skip
PATTERNS = ("T********", "T*F**F***", "FF*FF****", "****1****")
COMPARISONS = ("=", "=", "=", "<", ">", "<=", "<>")
# A predicate in a query, and its arguments.
CALL = re.compile(r"(ST_(?:Relate|%s))\(([^()]*|\w+\.g, ST_GeomFromText\('[^']*'\)(?:, '[^']*')?)\)" % "|".join(it[3:] for it in PREDICATES))
ITEMS_OF_ONE = ("COUNT(*)", "a.id", "a.id, ST_AsText(a.g)", "a.id, ST_Dimension(a.g), ST_IsEmpty(a.g)")
ITEMS_OF_TWO = ("COUNT(*)", "a.id, b.id", "a.id, b.id", "b.t, a.id", "b.id, ST_Dimension(a.g), ST_AsText(b.g)")


class Query(NamedTuple):
    """A query: how many tables it has, its items, the conjuncts of its condition, and its LIMIT or nothing; and the form of each column
    of both tables, by names such as `a.n`."""

    tables: int
    items: str
    conjuncts: list[str]
    limit: str
    forms: dict[str, str]

    @property
    def condition(self) -> str:
        return " AND ".join(self.conjuncts)

    @property
    def text(self) -> str:
        """The text that `sfq` is asked."""
        return f"SELECT {self.items} FROM a a{', b b' * (self.tables - 1)} WHERE {self.condition}{self.limit}"

    @property
    def is_spatial(self) -> bool:
        return "ST_" in self.text

    @property
    def label(self) -> str:
        """The query, and the forms of the columns that it names."""
        return f"`{self.text}`; " + ", ".join(f"{it}: {form}" for it, form in sorted(self.forms.items()) if it in self.text)


def atom(dice: random.Random, tables: int) -> str:
    """A condition without AND, OR or NOT."""
    one, other = ("a", "b")[:: dice.choice((1, -1))] if tables == 2 else ("a", "a")
    kind = dice.random()
    if kind < 0.4:
        second = f"{other}.g" if one != other and dice.random() < 0.85 else f"ST_GeomFromText('{dice.choice(WINDOWS)}')"
        if dice.random() < 0.12:
            return f"ST_Relate({one}.g, {second}, '{dice.choice(PATTERNS)}')"
        return f"{dice.choice(list(PREDICATES))}({one}.g, {second})"
    if kind < 0.65 and one != other:
        return f"{one}.{dice.choice(('n', 'id'))} {dice.choice(COMPARISONS)} {other}.{dice.choice(('n', 'n', 'id'))}"
    if kind < 0.75 and one != other:
        return f"{one}.t {dice.choice(COMPARISONS)} {other}.t"
    if kind < 0.9:
        return dice.choice((f"{one}.n {dice.choice(COMPARISONS)} {dice.choice((0, 7, 300))}", f"{one}.t {dice.choice(COMPARISONS)} 't7'"))
    more = (f"ST_AsText({one}.g) = {other}.t", f"ST_Dimension({one}.g) = {other}.n", f"ST_AsText({one}.g) = ST_AsText({other}.g)")
    return dice.choice((f"{one}.n IS NULL", f"{one}.t IS NOT NULL", f"ST_IsEmpty({one}.g)", f"ST_Dimension({one}.g) = 0", *more))


def conjunct(dice: random.Random, tables: int) -> str:
    """A condition, at times under NOT, or two with OR between them."""
    kind = dice.random()
    if kind < 0.7:
        return atom(dice, tables)
    return f"NOT {atom(dice, tables)}" if kind < 0.82 else f"({atom(dice, tables)} OR {atom(dice, tables)})"


def drawn_query(dice: random.Random) -> Query:
    """A query at random."""
    tables = 1 if dice.random() < 0.2 else 2
    conjuncts = [conjunct(dice, tables) for _ in range(dice.choice((1, 1, 2, 2, 3)))]
    items = dice.choice(ITEMS_OF_ONE if tables == 1 else ITEMS_OF_TWO)
    limit = f" LIMIT {dice.choice((1, 5, 100))}" if dice.random() < 0.2 and items != "COUNT(*)" else ""
    forms = {f"{it}.{column}": dice.choice(list(kinds)) for it in "ab" for column, kinds in COLUMNS}
    return Query(tables, items, conjuncts, limit, forms)


def write_tables(query: Query, dice: random.Random, rows: int, folder: pathlib.Path) -> None:
    """Writes the schema and the tables of a query; the second table has a row less."""
    names = "ab"[: query.tables]
    (folder / "schema.sql").write_text("".join(f"CREATE TABLE {it} (id INTEGER PRIMARY KEY, n INTEGER, t TEXT, g GEOMETRY);\n" for it in names))
    for at, it in enumerate(names):
        count = max(1, rows - at)
        columns = [kinds[query.forms[f"{it}.{name}"]](dice, count) for name, kinds in COLUMNS]
        lines = [f'{key},{n},{t},"{g}"' if g else f"{key},{n},{t}," for key, (n, t, g) in enumerate(zip(*columns))]
        (folder / f"{it}.csv").write_text("\n".join(["id,n,t,g", *lines]) + "\n")


def in_spatialite(text: str) -> str:
    """A condition or items in the SQL of SpatiaLite: there a NULL argument makes a predicate -1, and texts have blanks behind commas."""
    text = re.sub(r"ST_IsEmpty\((\w\.g)\)", r"NULLIF(ST_IsEmpty(\1), -1)", text)
    return re.sub(r"ST_AsText\((\w\.g)\)", r"replace(ST_AsText(\1), ', ', ',')", text)


def forces_meeting(text: str) -> bool:
    """Whether a text is a predicate of both tables that holds of geometries alone whose envelopes meet."""
    if not CALL.fullmatch(text) or "FromText" in text:
        return False
    return ", 'T" in text if text.startswith("ST_Relate") else PREDICATES[text.split("(")[0]]


def of_sqlite(query: Query) -> tuple[str, bool]:
    """The query in the SQL of sqlite3 or of SpatiaLite, and whether it searches a tree."""
    text = in_spatialite(CALL.sub(r"(NULLIF(\1(\2), -1) = 1)", query.condition))
    names = "ab"[: query.tables]
    has_tree = query.tables == 2 and any(map(forces_meeting, query.conjuncts))
    from_ = "a a CROSS JOIN tree t ON {} CROSS JOIN b b ON b.id = t.id".format(
        " AND ".join(f"t.{low} <= Mbr{high}(a.g) AND t.{high} >= Mbr{low}(a.g)" for low, high in (("MinX", "MaxX"), ("MinY", "MaxY")))
    ) if has_tree else ", ".join(f"{it} {it}" for it in names)
    order = "" if query.items == "COUNT(*)" else " ORDER BY " + ", ".join(f"{it}.id" for it in names)
    return f"SELECT {in_spatialite(query.items)} FROM {from_} WHERE {text}{order}{query.limit};", has_tree


def sqlite_words(query: Query) -> list[str]:
    """The words that have sqlite3 load the tables and run the query."""
    text, has_tree = of_sqlite(query)
    script = [".load mod_spatialite"] * query.is_spatial + [".mode csv"]
    for it in "ab"[: query.tables]:
        script += [f"CREATE TABLE {it} (id INTEGER PRIMARY KEY, n INTEGER, t TEXT, g);", f".import --skip 1 {it}.csv {it}"]
        script.append(f"UPDATE {it} SET n = NULLIF(n, ''), t = NULLIF(t, ''){', g = ST_GeomFromText(g)' * query.is_spatial};")
    if has_tree:
        bounds = ", ".join(f"Mbr{it}(g)" for it in ("MinX", "MaxX", "MinY", "MaxY"))
        script += ["CREATE VIRTUAL TABLE tree USING rtree(id, MinX, MaxX, MinY, MaxY);", f"INSERT INTO tree SELECT id, {bounds} FROM b WHERE MbrMinX(g) IS NOT NULL;"]
    return ["sqlite3", ":memory:", *script, ".headers off", SEPARATOR, text]


def duckdb_words(query: Query) -> list[str]:
    """The words that have DuckDB load the tables and run the query, in one thread."""
    script = ["SET threads = 1", ".mode csv", ".headers off"]
    for it in "ab"[: query.tables]:
        columns = "{'id': 'BIGINT', 'n': 'BIGINT', 't': 'VARCHAR', 'g': 'VARCHAR'}"
        script.append(f"CREATE TABLE {it} AS SELECT * FROM read_csv('{it}.csv', header = true, columns = {columns})")
    order = "" if query.items == "COUNT(*)" else " ORDER BY " + ", ".join(f"{it}.id" for it in "ab"[: query.tables])
    script.append(f"SELECT {query.items} FROM {', '.join(f'{it} {it}' for it in 'ab'[: query.tables])} WHERE {query.condition}{order}{query.limit}")
    return ["duckdb", ":memory:", *(word for it in script for word in ("-c", it))]


# What GEOS is asked in place of a predicate, and of which of both geometries.
OF_GEOS = {"ST_Within": "within", "ST_Touches": "touches", "ST_Crosses": "crosses", "ST_Overlaps": "overlaps", "ST_Intersects": "intersects",
           "ST_Contains": "within"}  # fmt: skip


def geos_words(query: Query, program: str) -> list[str]:
    """The words of the program over GEOS, where the query is one that it knows; else nothing."""
    found = re.fullmatch(r"(ST_\w+)\((\w)\.g, (?:(\w)\.g|ST_GeomFromText\('([^']*)'\))\)", query.condition)
    if not found or found[1] not in OF_GEOS or query.limit or query.items not in ("a.id, b.id", "a.id", "COUNT(*)"):
        return []
    if found[4]:
        is_known = query.tables == 1 and found[1] != "ST_Contains"
        return [program, "window", OF_GEOS[found[1]], f"{found[2]}.pairs", "window"] if is_known else []
    names = (found[3], found[2]) if found[1] == "ST_Contains" else (found[2], found[3])
    return [program, "join", OF_GEOS[found[1]], *(f"{it}.pairs" for it in names)] if names[0] != names[1] else []


def write_for_geos(query: Query, folder: pathlib.Path) -> None:
    """Writes the tables and the constant of a query as the program over GEOS reads them."""
    for it in "ab"[: query.tables]:
        records = ([*line.split(",", 3)] for line in (folder / f"{it}.csv").read_text().splitlines())
        (folder / f"{it}.pairs").write_text("".join(f"{record[0]},{record[3]}\n" for record in records))
    constant = re.search(r"ST_GeomFromText\('([^']*)'\)", query.condition)
    (folder / "window").write_text(f"{constant[1] if constant else ''}\n")


# ---- shapes ----

class Shapes(NamedTuple):
    """What is asked of shapes: `relate` or `check`, and for each the input of worst.py that makes it, which of its two it is, and how it
    is changed then."""

    asked: str
    made: tuple[tuple[worst.Input, int, tuple[str, ...]], ...]

    @property
    def label(self) -> str:
        """What is asked, and of what."""
        return f"{self.asked}: " + " beside ".join(f"{bad.label} ({which + 1}{''.join(f', {it}' for it in changes)})" for bad, which, changes in self.made)


def of_squares(count: int) -> str:
    """So many closed lines round the squares of a grid, in no order."""
    across = max(1, int(count**0.5 + 0.999))
    rings = [square(10 * (at % across), 10 * (at // across), 6) for at in range(count)]
    return bad_shapes.lines([[*it, it[0]] for it in shuffled(random.Random(count), rings)])


def long_lines(count: int) -> str:
    """So many long lines side by side and askew, in no order."""
    return bad_shapes.lines([[(3 * at, 0), (SPAN + 3 * at, SPAN)] for at in shuffled(random.Random(count), range(count))])


def star_in_pieces(count: int) -> str:
    """The edges of a star, each a line of its own, in no order."""
    ring = bad_shapes.star_ring(count)
    return bad_shapes.lines(shuffled(random.Random(count), [[it, ring[at - 1]] for at, it in enumerate(ring)]))


# Shapes beside those of worst.py.
MORE = (
    worst.Input("comb", lambda count: bad_shapes.polygon(comb(0, 0, 3, count)), 600, 60),
    worst.Input("squares of a grid in no order", bad_shapes.squares_shuffled, 249, 60),
    worst.Input("closed lines of a grid in no order", of_squares, 249, 60),
    worst.Input("long lines in no order", long_lines, 249, 60),
    worst.Input("edges of a star in no order", star_in_pieces, 249, 60),
)
CHANGES = ("moved", "sheared", "turned round", "shuffled", "mirrored")


def elements_of(body: str) -> list[str]:
    """The elements of a text of several, without their type."""
    found, depth, start = [], 0, 0
    for at, it in enumerate(body):
        depth += (it == "(") - (it == ")")
        if it == "," and depth == 0:
            found.append(body[start:at])
            start = at + 1
    return [*found, body[start:]]


def changed(text: str, how: str, dice: random.Random) -> str:
    """A text changed in a way that keeps it valid: its positions mapped, or its elements in another order, or all of it turned round."""
    if how == "shuffled":
        word, _, body = text.partition("(")
        return f"{word}({','.join(shuffled(dice, elements_of(body[:-1])))})" if word.startswith("MULTI") else text
    if how == "turned round":
        return bad_shapes.backwards(text) if word_of(text) not in ("POLYGON", "MULTIPOLYGON") else text
    maps: dict[str, Callable[[int, int], tuple[int, int]]] = {
        "moved": lambda x, y: (x + 17, y - 5), "sheared": lambda x, y: (3 * x + y, y - 2 * x), "mirrored": lambda x, y: (y, x),
    }
    return re.sub(r"(-?\d+) (-?\d+)", lambda it: "%d %d" % maps[how](int(it[1]), int(it[2])), text)


def word_of(text: str) -> str:
    """The type of a text."""
    return text.partition("(")[0]


def drawn_shapes(dice: random.Random) -> Shapes:
    """Shapes at random: one that is checked, or two that are related."""
    known = [(it, which) for it in worst.PAIRS for which in (0, 1)] + [(it, 0) for it in worst.SINGLES + 3 * MORE]
    asked = "relate" if dice.random() < 0.7 else "check"

    def one() -> tuple[worst.Input, int, tuple[str, ...]]:
        bad, which = dice.choice(known)
        return bad, which, tuple(sorted(dice.sample(CHANGES, dice.choice((0, 1, 1, 2)))))

    first = one()
    if asked == "check":
        return Shapes(asked, (first,))
    return Shapes(asked, (first, (first[0], 1 - first[1] if first[0] in worst.PAIRS else 0, one()[2]) if dice.random() < 0.3 else one()))


def texts_of(shapes: Shapes, dice: random.Random, size: int) -> list[str]:
    """The texts of drawn shapes at a size."""
    found = []
    for bad, which, changes in shapes.made:
        text = bad.make(size)
        text = text if isinstance(text, str) else text[which]
        for it in changes:
            text = changed(text, it, dice)
        found.append(text)
    return found


# ---- measuring ----

class Task(NamedTuple):
    """An input in a folder: the words of each program, how many bytes it has, what is on standard input, how what a program prints is
    read as its answer."""

    words: dict[str, list[str]]
    size: int
    given: str
    answer: Callable[[str, bytes], Sequence[object]]


class Drawn(NamedTuple):
    """An input of a number: what it is, the first and the greatest size, what makes a task of a size in a folder, and what `sfq` is run
    with there."""

    label: str
    first: int
    most: int
    task: Callable[[int, pathlib.Path], Task]
    words: tuple[str, ...]


class Programs(NamedTuple):
    """The programs: `sfq`, and those of the peers that are there."""

    sfq: str
    geos: Optional[str] = None
    tables: Optional[str] = None
    sqlite: bool = False
    spatialite: bool = False
    duckdb: bool = False


def found_programs(sfq: str, folder: pathlib.Path) -> Programs:
    """The programs that are there; those over GEOS are compiled."""
    geos, tables = (compiled(it, folder, "-lgeos_c") for it in (SHAPES, TABLES))
    found = Programs(sfq, geos, tables, bool(shutil.which("sqlite3")), bool(worst.has_spatialite()), bool(shutil.which("duckdb")))
    for it, name in zip(found[1:], ("GEOS", "GEOS", "sqlite3", "SpatiaLite", "DuckDB")):
        if not it:
            print(f"{name} is left out", file=sys.stderr)
    return found


def query_task(query: Query, seed: str, programs: Programs, rows: int, folder: pathlib.Path) -> Task:
    """The tables of a query in a folder, and the words of each program. SpatiaLite has no empty points."""
    write_tables(query, random.Random(f"{seed} {rows}"), rows, folder)
    size = sum(it.stat().st_size for it in folder.glob("*.csv"))
    words = {"sfq": [programs.sfq, *words_of_query(query)]}
    has_empty = any(form.startswith("EMPTY") and it in query.text for it, form in query.forms.items())
    if programs.spatialite and query.is_spatial and not has_empty:
        words["SpatiaLite"] = sqlite_words(query)
    if programs.sqlite and not query.is_spatial:
        words["sqlite3"] = sqlite_words(query)
    if programs.duckdb and not query.is_spatial:
        words["DuckDB"] = duckdb_words(query)
    if programs.tables and geos_words(query, programs.tables):
        write_for_geos(query, folder)
        words["GEOS"] = geos_words(query, programs.tables)
    return Task(words, size, os.devnull, lambda who, printed: answer_of_query(query, who, printed))


def words_of_query(query: Query) -> tuple[str, ...]:
    """What `sfq` is run with for a query."""
    return "run", "schema.sql", ".", query.text


def shapes_task(shapes: Shapes, seed: str, programs: Programs, size: int, folder: pathlib.Path) -> Task:
    """The texts of shapes in a folder, and the words of each program."""
    texts = texts_of(shapes, random.Random(f"{seed} {size}"), size)
    (folder / "input").write_text("\n".join(texts) + "\n")
    for name, text in zip(("first", "second"), texts):
        (folder / name).write_text(text + "\n")
    if shapes.asked == "check":
        (folder / "schema.sql").write_text("CREATE TABLE one (id INTEGER PRIMARY KEY, geom GEOMETRY);\n")
        (folder / "one.csv").write_text(f'id,geom\n1,"{texts[0]}"\n')
    words = {"sfq": [programs.sfq, *words_of_shapes(shapes)]}
    if programs.geos:
        words["GEOS"] = [programs.geos, shapes.asked, "0" if shapes.asked == "relate" else "1"]
    return Task(words, sum(map(len, texts)), "input", answer_of_shapes)


def words_of_shapes(shapes: Shapes) -> tuple[str, ...]:
    """What `sfq` is run with for shapes."""
    return ("check", "schema.sql", ".") if shapes.asked == "check" else ("relate", "@first", "@second")


def drawn(seed: int, number: int, programs: Programs) -> Drawn:
    """The input of a number: two in three are queries."""
    dice = random.Random(f"{seed} {number}")
    if dice.random() < 2 / 3:
        query = drawn_query(dice)
        make = lambda rows, folder: query_task(query, f"{seed} {number}", programs, rows, folder)
        return Drawn(query.label, ROWS, MOST_ROWS, make, words_of_query(query))
    shapes = drawn_shapes(dice)
    most = min(MOST_POSITIONS, *(4 * bad.size for bad, _, _ in shapes.made))
    make = lambda size, folder: shapes_task(shapes, f"{seed} {number}", programs, size, folder)
    return Drawn(shapes.label, POSITIONS, most, make, words_of_shapes(shapes))


class Ran(NamedTuple):
    """What a run took: seconds beyond start-up, None where it was ended or failed; the status; and its answer."""

    seconds: Optional[float]
    status: int
    answer: Sequence[object]


class At(NamedTuple):
    """What a program takes at a size, the bytes that are read and printed, and the peers that can be asked."""

    size: int
    ran: Ran
    weight: int
    others: list[str]


class Noted(NamedTuple):
    """What is noted of an input: seconds and growth of `sfq`; the best peer, its seconds and growth, and the ratio to it, all beyond
    start-up; whether growth and ratio are of instructions; and what is seen."""

    number: int
    it: Drawn
    size: int
    seconds: Optional[float]
    growth: float = 0
    best: str = ""
    best_seconds: float = 0
    best_growth: float = 0
    ratio: float = 0
    counted_ratio: float = 0
    is_counted: bool = False
    seen: tuple[str, ...] = ()

    @property
    def order(self) -> tuple[float, float]:
        """By what rows are sorted: what is furthest behind comes first, then what grows most."""
        return -(self.counted_ratio or self.ratio), -self.growth

    def cells(self) -> list[str]:
        """The cells of its row."""
        took = figure(self.seconds * 1e3) if self.seconds else f"> {SECONDS:,}000"
        best = [f"{self.best} {figure(self.best_seconds * 1e3)}", f"{self.best_growth:.2f}" if self.best_growth else ""] if self.best else ["", ""]
        ratios = [f"{it:.2g}" if it else "" for it in (self.ratio, self.counted_ratio)]
        shown = [f"{self.growth:.2f}" if self.growth else "", *best, *ratios, ", ".join(self.seen)]
        return [f"{self.number}", self.it.label.replace("|", "\\|"), f"{self.size:,}", took, *shown]

    def commands(self, seed: int) -> str:
        """The commands that make its files and run `sfq` on them."""
        kept = f"attack-{self.number}"
        again = f"bench/attack.py --seed {seed} --only {self.number} --keep {kept}"
        return f"{self.number}: {again}; cd {kept}/{self.size}; {shlex.join(('sfq', *self.it.words))}"


HEADS = ["number", "input", "size", "sfq ms", "growth", "best peer, ms", "its growth", "ratio", "ratio of instructions", "what is seen"]


class Measures:
    """Measures inputs of numbers."""

    def __init__(self, options: argparse.Namespace, room: pathlib.Path, programs: Programs) -> None:
        self.options, self.room, self.programs = options, room, programs
        self.starts: dict[tuple[object, ...], float] = {}
        self.counts = shutil.which("valgrind") is not None and not options.times

    def in_folder(self, it: Drawn, size: int, run: Callable[[pathlib.Path, Task], Found]) -> Found:
        """What a function of a folder and the task there returns, for an input at a size. The folder is kept where that is asked for."""
        with tempfile.TemporaryDirectory(dir=self.room) as name:
            folder = pathlib.Path(name)
            found = run(folder, it.task(size, folder))
            if self.options.keep:
                shutil.copytree(folder, f"{self.options.keep}/{size}", dirs_exist_ok=True)
            return found

    def ran(self, who: str, folder: pathlib.Path, task: Task, repeats: int = 2, seconds: int = SECONDS) -> Ran:
        """The least of some runs of a program."""
        least: Optional[float] = None
        answer: list[object] = []
        for _ in range(repeats):
            _, processor, _, status = probe(task.words[who], folder, folder / task.given, seconds)
            if status != 0:
                return Ran(None, status, answer)
            least = processor if least is None else min(least, processor)
        printed = (folder / "output").read_bytes()
        return Ran(least, 0, task.answer(who, printed))

    def start(self, who: str, it: Drawn, is_counted: bool = False) -> float:
        """What a program takes of the smallest input of a kind: seconds, or instructions."""
        kind = who, it.first, it.words[:1], "ST_" in it.label, is_counted

        def taken(folder: pathlib.Path, task: Task) -> float:
            if who not in task.words:
                return 0
            return instructions(task.words[who], folder, folder / task.given) if is_counted else self.ran(who, folder, task, 3).seconds or 0

        if kind not in self.starts:
            self.starts[kind] = self.in_folder(it, 4 if it.first == ROWS else 8, taken)
        return self.starts[kind]

    def at(self, it: Drawn, size: int, who: str = "sfq", seconds: int = SECONDS) -> At:
        """What a program takes of an input at a size."""

        def taken(folder: pathlib.Path, task: Task) -> At:
            ran = self.ran(who, folder, task, 2, seconds)
            beyond = None if ran.seconds is None else max(ran.seconds - self.start(who, it), 1e-4)
            weight = task.size + (folder / "output").stat().st_size
            return At(size, ran._replace(seconds=beyond), weight, [it for it in task.words if it != "sfq"])

        return self.in_folder(it, size, taken)

    def sizes(self, it: Drawn) -> list[At]:
        """What `sfq` takes of an input at each size, until that is enough or it refuses a size."""
        found: list[At] = []
        size = it.first
        while size <= it.most:
            at = self.at(it, size)
            if at.ran.status > 0:
                break
            found.append(at)
            if at.ran.seconds is None or at.ran.seconds >= ENOUGH:
                break
            size *= TIMES
        return found

    def counted(self, who: str, it: Drawn, sizes: Sequence[int]) -> list[float]:
        """The instructions of a program beyond start-up at some sizes."""
        taken = lambda folder, task: instructions(task.words[who], folder, folder / task.given)
        return [max(self.in_folder(it, size, taken) - self.start(who, it, True), 1) for size in sizes]

    def noted(self, number: int) -> tuple[Optional[Noted], list[At]]:
        """What is noted of the input of a number, by time; None where no size of it is valid. And what was measured of it."""
        it = drawn(self.options.seed, number, self.programs)
        measured = self.sizes(it)
        if not measured:
            return None, []
        last = measured[-1]
        ours = last.ran
        growth = growth_of(*((at.weight, at.ran.seconds) for at in measured[-2:])) if len(measured) > 1 else 0
        peers = {who: self.at(it, last.size, who, int(2 + 2 * (ours.seconds or SECONDS))).ran for who in last.others}
        answered = {who: ran.seconds for who, ran in peers.items() if ran.seconds}
        best = min(answered, key=answered.__getitem__, default="")
        ratio = (ours.seconds or SECONDS) / answered[best] if best else 0
        differ = [f"differs from {who}" for who, ran in peers.items() if ran.seconds and ours.seconds and ran.answer != ours.answer]
        found = Noted(number, it, last.size, ours.seconds, growth, best, answered.get(best, 0), 0, ratio)
        return found._replace(seen=(*self.seen(found, 1), *differ, *["is ended"] * (ours.seconds is None))), measured

    def seen(self, noted: Noted, times: int) -> list[str]:
        """Whether an input grows, or is behind: by instructions, or by so many times the ratio of time."""
        ratio, most = noted.counted_ratio, self.options.behind
        is_behind = ratio > most or (noted.ratio > times * most and (noted.seconds or SECONDS) > 0.01)
        return ["grows"] * (noted.growth > self.options.growth) + ["behind"] * is_behind

    def confirmed(self, noted: Noted, measured: list[At]) -> Noted:
        """What is noted of an input once its instructions are counted, and those of the best peer where that is near by."""
        measured = [at for at in measured if at.ran.seconds and at.ran.seconds <= COUNTED]
        if not self.counts or len(measured) < 2 or noted.best == "DuckDB":
            return noted
        small, large = measured[-2:]
        counted = ["sfq"] + [noted.best] * (noted.ratio > NEAR)
        ours, *theirs = ([(at.weight, count) for at, count in zip((small, large), self.counted(who, noted.it, (small.size, large.size)))]
                         for who in counted)
        grown = [float(exponent(*it)) if small.weight < large.weight else 0 for it in (ours, *theirs)]
        found = noted._replace(growth=grown[0], best_growth=sum(grown[1:]), is_counted=True)
        found = found._replace(counted_ratio=ours[1][1] / theirs[0][1][1] if theirs else 0)
        kept = [it for it in noted.seen if it not in ("grows", "behind")]
        return found._replace(seen=(*self.seen(found, 2), *kept))

    def row(self, number: int) -> Optional[Noted]:
        """What is noted of the input of a number; None where it isn't valid."""
        noted, measured = self.noted(number)
        return self.confirmed(noted, measured) if noted and noted.seen else noted


def growth_of(before: tuple[int, Optional[float]], now: tuple[int, Optional[float]]) -> float:
    """The exponent of growth from a size and its seconds to another; 0 where these are too few, a lower one where the first are."""
    if now[1] is None or now[1] < ENOUGH / 6 or now[0] <= before[0]:
        return 0
    return float(exponent((before[0], max(before[1] or 0, LEAST)), (now[0], now[1])))


def answer_of_query(query: Query, who: str, printed: bytes) -> list[list[str]]:
    """The rows that a program printed, each of its fields, in an order of ours. `sfq` and the program over GEOS print a header, and the
    latter prints the rows where it is asked for their number, and those of the geometry that the predicate names first before the other's."""
    rows = [[in_one_form(it) for it in row] for row in csv.reader(io.StringIO(printed.decode("utf-8", "replace"), newline=""))]
    rows = rows[1:] if who in ("sfq", "GEOS") else rows
    if who == "GEOS" and geos_words(query, "")[3:4] == ["b.pairs"]:
        rows = [row[::-1] for row in rows]
    return [[str(len(rows))]] if who == "GEOS" and query.items == "COUNT(*)" else sorted(rows)


def in_one_form(field: str) -> str:
    """A field of an answer; the points of a MULTIPOINT have no parentheses of their own, as SpatiaLite prints them."""
    return re.sub(r"[()]", "", field) if field.startswith("MULTIPOINT") else field


def answer_of_shapes(_: object, printed: bytes) -> list[str]:
    """The matrix that a program printed, or the number, 1 for a valid geometry."""
    return re.findall(r"\b(?:[F012]{9}|\d+)\b", printed.decode("utf-8", "replace"))


def numbers_of(options: argparse.Namespace) -> Iterator[int]:
    """The numbers that are drawn, until the minutes are over."""
    if options.only is not None:
        yield options.only
        return
    end, number = time.monotonic() + 60 * options.minutes, options.start
    while time.monotonic() < end and (options.numbers is None or number < options.start + options.numbers):
        yield number
        number += 1


def all_noted(measures: Measures, options: argparse.Namespace) -> tuple[list[Noted], int, int]:
    """What is noted of each input, to be shown, and how many were drawn and weren't valid, until it is interrupted."""
    found: list[Noted] = []
    counts = [0, 0]
    try:
        for number in numbers_of(options):
            noted = measures.row(number)
            counts[0] += 1
            counts[1] += noted is None
            if noted and (noted.seen or options.all or options.only is not None):
                found.append(noted)
                print(f"after {counts[0]}: " + " | ".join(noted.cells()), file=sys.stderr, flush=True)
    except KeyboardInterrupt:
        print("interrupted", file=sys.stderr)
    return sorted(found, key=lambda it: it.order), counts[0], counts[1]


def interrupt(*_: object) -> None:
    """Ends the run as Ctrl-C does."""
    raise KeyboardInterrupt


def options_of() -> argparse.Namespace:
    """The options."""
    about, *more = __doc__.split("\n\n")
    parser = argparse.ArgumentParser(description=about, epilog=more[2])
    parser.add_argument("--program", default=str(PROGRAM), help="the program that is measured (that of ./build)")
    parser.add_argument("--seed", type=int, default=1, help="what inputs are drawn from (1)")
    parser.add_argument("--minutes", type=float, default=10, help="how long it goes on (10)")
    parser.add_argument("--start", type=int, default=1, help="the first number (1)")
    parser.add_argument("--numbers", type=int, help="how many numbers")
    parser.add_argument("--only", type=int, metavar="NUMBER", help="the input of one number")
    parser.add_argument("--keep", metavar="DIR", default="", help="with --only: where its files are kept")
    parser.add_argument("--growth", type=float, default=1.3, help="the exponent above which an input is shown (1.3)")
    parser.add_argument("--behind", type=float, default=1.1, help="the ratio to the best peer above which it is shown (1.1)")
    parser.add_argument("--times", action="store_true", help="count no instructions")
    parser.add_argument("--all", action="store_true", help="show each input")
    parser.add_argument("--list", action="store_true", help="show what is drawn (100 numbers, where --numbers isn't given), and measure nothing")
    options = read_options(parser)
    if options.write:
        parser.error("there is no table to write")
    if options.keep and options.only is None:
        parser.error("--keep needs --only")
    return options


def main() -> None:
    options = options_of()
    if options.list:
        numbers = [options.only] if options.only is not None else range(options.start, options.start + (options.numbers or 100))
        for number in numbers:
            print(number, drawn(options.seed, number, Programs("sfq")).label)
        return
    if not os.access(options.program, os.X_OK):
        sys.exit(f"there is no program {options.program}" if options.program != str(PROGRAM) else "the program isn't built: run ./build")
    signal.signal(signal.SIGTERM, interrupt)
    with tempfile.TemporaryDirectory(prefix="sfq-attack-") as name:
        room = pathlib.Path(name)
        programs = found_programs(os.path.abspath(options.program), room)
        found, count, invalid = all_noted(Measures(options, room, programs), options)
    table = Table(HEADS)
    for it in found:
        table.add(it.cells())
    print("", *(it.commands(options.seed) for it in found), sep="\n")
    print(f"\n{count} inputs, of which {invalid} aren't valid and {sum(bool(it.seen) for it in found)} are to be looked at", flush=True)


if __name__ == "__main__":
    main()
