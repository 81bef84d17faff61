"""How a query is split: by stretches of a table, by tiles, or by blocks, which are stretches of one table with those of the other."""
from __future__ import annotations

import itertools
import os
import shutil
from typing import Iterable, NamedTuple, Optional

from sfq.geometry.counts import number_of

from . import query, schema
from .faults import CLUSTER, QUERY, ended
from .programs import Programs

# The most rows of a table that sfq takes.
MOST_ROWS = 100_000
# A tile of so many times the rows that are asked for is cut into blocks.
CROWDED = 4


class Part(NamedTuple):
    """A part of sfq-tiles: the name of a table in the tiles, the table with the columns that are copied, and the column by which it is cut."""

    name: str
    whole: schema.Table
    copied: schema.Table
    column: str = ""

    @property
    def word(self) -> str:
        columns = ",".join(it.name for it in self.copied.columns)
        is_whole = len(self.copied.columns) == len(self.whole.columns)
        return f"{self.name}={self.whole.name}{'.' * bool(self.column)}{self.column}{'' if is_whole else f':{columns}'}"

    @property
    def table(self) -> schema.Table:
        """Returns the table in the tiles."""
        table = self.copied._replace(name=self.name)
        return schema.marked(table) if self.column else table


class Job(NamedTuple):
    """A run of sfq: its name, schema, query and tables, each a name and a path, and how many rows these have."""

    name: str
    schema: str
    query: str
    tables: list[tuple[str, str]]
    size: int


class Way:
    """How a query is split into runs over parts of its tables."""

    def __init__(self, kind: str, parts: list[Part], texts: tuple[str, str], said: str = "", spare: Optional[Way] = None) -> None:
        self.kind, self.parts, self.said, self.spare = kind, parts, said, spare
        # The query over a tile, and over a block; the schemas that these need.
        self.text, self.block_text = texts
        self.tables = [it.table for it in parts]
        self.schema = "".join(it.text for it in self.tables)
        is_one = kind == "tiles" and len(parts) == 1
        self.block_tables = [self.tables[0]._replace(name=it) for it in query.NAMES] if is_one else self.tables
        self.block_schema = "".join(it.text for it in self.block_tables)
        self.counts = {it.name: 0 for it in parts}

    def check(self, programs: Programs, header: bytes, keys: int) -> bytes:
        """Asks sfq whether it takes the queries of the parts, and returns the header of their answers."""
        if self.spare:
            self.spare.check(programs, header, keys)
        for name, tables, text in (("tile", self.tables, self.text), ("block", self.block_tables, self.block_text)):
            given, folder = programs.without_rows(name, tables)
            query_path = f"{programs.room}/{name}.sql"
            with open(query_path, "w", encoding="utf-8", newline="") as file:
                file.write(text)
            out, err, status = programs.run(given, folder, f"@{query_path}")
            if status:
                said = err.decode(errors="replace").strip()
                raise ended(QUERY, f"the query of a part, which is longer by what splitting needs, is refused as {said}: {text[:200]}")
            found = out.split(b"\n", 1)[0] + b"\n"
            if found.count(b",") != header.count(b",") + keys or not f",{found.decode()}".endswith(f",{header.decode()}"):
                raise ended(QUERY, f"the query can't be split for sure: {text[:200]}")
        return found

    def split(self, programs: Programs, given: str, folder: str, rows: int) -> tuple[str, list[dict[str, str]]]:
        """Splits the tables, and returns the folder of the parts and the records of sfq-tiles."""
        to = f"{programs.room}/{self.kind}"
        return to, programs.split(given, folder, to, rows, [it.word for it in self.parts])

    def jobs(self, programs: Programs, given: str, folder: str, rows: int, most_pairs: int) -> tuple[Way, list[Job]]:
        """Splits the tables, and returns the way that was taken at last, and its runs, the largest first."""
        to, records = self.split(programs, given, folder, rows)
        if not self.parts[0].column:
            self.count(records)
            if len(self.parts) == 2 and self.pairs > most_pairs:
                raise ended(
                    QUERY,
                    f"no part of ON or WHERE between ANDs is a predicate that holds only where two geometries are near each other, so the "
                    f"query looks at {number_of(self.pairs, 'pair')} of rows; --most-pairs {self.pairs} allows that",
                )
            return self, ordered(self.blocks(to, records, self.parts))
        spare = self.spare
        if spare and any(self.is_crowded(it, rows) for it in records):
            other, stretches = spare.split(programs, given, folder, rows)
            spare.count(stretches)
            first, second = self.parts[0].name, self.parts[-1].name
            if spare.pairs <= sum(int(it[first]) * int(it[second]) for it in records):
                shutil.rmtree(to)
                return spare, ordered(spare.blocks(other, stretches, spare.parts))
            shutil.rmtree(other)
        return self, ordered(self.tiled(programs, to, rows, records))

    @property
    def pairs(self) -> int:
        """Returns the number of pairs of rows of two tables."""
        return self.counts[self.parts[0].name] * self.counts[self.parts[1].name]

    def is_crowded(self, record: dict[str, str], rows: int) -> bool:
        """Whether a tile has many more rows than were asked for."""
        return max(int(record[it.name]) for it in self.parts) > min(MOST_ROWS, CROWDED * rows)

    def count(self, records: Iterable[dict[str, str]]) -> None:
        for it in records:
            self.counts[it["part"]] += int(it["rows"])

    def blocks(self, to: str, records: Iterable[dict[str, str]], parts: Iterable[Part], name: str = "block") -> list[Job]:
        """Returns the runs over each choice of a stretch of each part."""
        found: list[Job] = []
        chosen = [[it for it in records if it["part"] == part.name] for part in parts]
        for choice in itertools.product(*chosen):
            if not all(int(it["rows"]) for it in choice):
                continue
            paths = [f"{to}/{it['part']}-{it['tile']}/{it['part']}.csv" for it in choice]
            number = "-".join(it["tile"] for it in choice)
            size = sum(int(it["rows"]) for it in choice)
            names = [it.name for it in self.block_tables]
            found.append(Job(f"{name} {number}", self.block_schema, self.block_text, list(zip(names, paths)), size))
        return found

    def tiled(self, programs: Programs, to: str, rows: int, records: Iterable[dict[str, str]]) -> list[Job]:
        """Returns the runs over tiles. One with too many rows is cut into blocks."""
        with open(f"{to}/schema.sql", encoding="utf-8") as file:
            found = schema.read(file.read())
        if [(it.name, it.key, [c.name for c in it.columns]) for it in found] != [(it.name, it.key, [c.name for c in it.columns]) for it in self.tables]:
            raise ended(CLUSTER, "sfq-tiles wrote another schema than was asked for: is it of this version?")
        jobs: list[Job] = []
        for it in records:
            number, counts = it["tile"], [int(it[part.name]) for part in self.parts]
            for part, count in zip(self.parts, counts):
                self.counts[part.name] += count
            if not all(counts):
                continue
            if self.is_crowded(it, rows):
                jobs += self.crowded(programs, to, number, min(MOST_ROWS, rows))
            else:
                tables = [(part.name, f"{to}/tile-{number}/{part.name}.csv") for part in self.parts]
                jobs.append(Job(f"tile {number}", self.schema, self.text, tables, sum(counts)))
        return jobs

    def crowded(self, programs: Programs, to: str, number: str, rows: int) -> list[Job]:
        """Returns the runs over the blocks of a tile that no cut makes smaller."""
        folder = f"{to}/blocks-{number}"
        parts = [f"{it.name}={it.name}" for it in self.parts]
        records = programs.split(f"{to}/schema.sql", f"{to}/tile-{number}", folder, rows, parts)
        pair = [self.parts[0], self.parts[-1]]
        return self.blocks(folder, records, pair, f"tile {number} block")


def ordered(jobs: Iterable[Job]) -> list[Job]:
    """Returns runs, the largest first, so that none is waited for at the end."""
    return sorted(jobs, key=lambda it: -it.size)


def choose(select: query.Select) -> Way:
    """Returns the way to split a query."""
    used = select.used
    tables = [it.table.only(columns) for it, columns in zip(select.sources, used)]
    text = select.text(query.NAMES)
    parts = [Part(name, it.table, table) for name, it, table in zip(query.NAMES, select.sources, tables)]
    plain = Way("blocks" if len(parts) == 2 else "stretches", parts, (text, text))
    # Of two empty geometries ST_Equals is true, and no cut helps against many.
    meetings = sorted(select.meetings, key=lambda it: it.function == "ST_Equals")
    return tiles(select, meetings[0], used, plain) if meetings else plain


def tiles(select: query.Select, meeting: query.Meeting, used: list[set[str]], spare: Way) -> Way:
    """Returns the way by tiles of the geometries of a predicate. `spare` is that by blocks."""
    columns = [name for _, name in sorted(meeting.arguments)]
    wholes = [it.table for it in select.sources]
    is_one = wholes[0] is wholes[1] and columns[0] == columns[1]
    if is_one:
        used = [used[0] | used[1]] * 2
    copied = [whole.only(names) for whole, names in zip(wholes, used)]
    for it in copied:
        if len(it.columns) + 2 > schema.MOST_COLUMNS:
            raise ended(
                QUERY,
                f"the query names {len(it.columns)} columns of {it.name}, and a tile has room for {schema.MOST_COLUMNS - 2}: name fewer",
            )
    parts = [Part(*it) for it in zip(query.NAMES, wholes, copied, columns)]
    marks = [[it.name for it in part.table.columns[-2:]] for part in parts]
    owner = query.owner_condition(select.sources, marks)
    names = ("one", "one") if is_one else query.NAMES
    texts = select.text(names, owner=owner), select.text(query.NAMES, owner=owner)
    return Way("tiles", parts[: 1 if is_one else 2], texts, meeting.text(select.sources), spare)


def whole_size(folder: str, table: schema.Table) -> int:
    """Returns the bytes of a table's file, for choosing a small one."""
    try:
        return os.path.getsize(f"{folder}/{table.name}.csv")
    except OSError:
        return 0
