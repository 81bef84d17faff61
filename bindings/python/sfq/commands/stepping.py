"""Which step an import takes: what each step refuses and changes, as a table, and what is done where one refuses much. None of it is proved."""
from __future__ import annotations

from decimal import Decimal
from typing import Callable, Iterator, NamedTuple, Optional, Sequence

from ..geometry import grids
from ..geometry.counts import number_of
from ..layers import proposing, reading
from . import changes
from .endings import DATA, Stopped
from .passes import Again, Key, Means, Pass

# How many steps a table has, each so many times as coarse as the one before.
ROWS, FACTOR = 6, 10
HEADERS = ("step", "records refused", "greatest shift", "relations changed")


class Sink:
    """A file that nothing is kept of."""

    def write(self, _text: bytes) -> None:
        """Drops a text."""

    def writelines(self, _texts: Sequence[bytes]) -> None:
        """Drops texts."""


class Row(NamedTuple):
    """What a step does: how many records of how many are refused, how far positions move at most, and how many relations change, None where
    they aren't compared."""

    grid: grids.Grid
    refused: int
    records: int
    greatest: float
    changed: Optional[int]

    def fields(self) -> tuple[str, str, str, str]:
        """Returns what the table shows."""
        moved = f"{self.greatest:.3g}" if self.greatest else "nothing moved"
        return self.grid.spelled[0], f"{self.refused:,} of {self.records:,}", moved, "" if self.changed is None else f"{self.changed:,}"


def tried(layers: Sequence[reading.Layer], means: Means) -> Row:
    """Returns what the step of a grid does to layers, of which nothing is written."""
    refused, records, greatest = 0, 0, 0.0
    tables: list[changes.Table] = []
    for number, it in enumerate(layers):
        found = ran(means, it, str(number))
        refused, records, greatest = refused + found.records - found.kept, records + found.records, max(greatest, found.shift.greatest)
        tables += changes.tables(it, str(number), found)
    if not means.compares:
        return Row(means.grid, refused, records, greatest, None)
    compared = changes.compared(tables, means.checker, means.modules, means.grid, means.name)
    return Row(means.grid, refused, records, greatest, sum(len(it.found.changes) for it in compared))


def ran(means: Means, layer: reading.Layer, name: str) -> Pass:
    """Returns a pass over a layer that has run, of which nothing is written."""
    while True:
        found = Pass(means, layer, Key("", True), name, (Sink(), Sink()), has_parts=True)
        try:
            found.run()
            return found
        except Again:
            continue


def rows(layers: Sequence[reading.Layer], means: Means, extent: Optional[proposing.Extent]) -> Iterator[Row]:
    """Yields what a grid does to layers, and what coarser steps do, until half of the records are refused. Those that can be rounded anew are."""
    means = means._replace(invalid="mend" if means.invalid == "mend" else "leave-out", parts=False)
    for _ in range(ROWS):
        row = tried(layers, means)
        yield row
        if extent is None or 2 * row.refused > row.records:
            return
        means = means._replace(grid=proposing.coarser(extent, means.grid, FACTOR))


def table(found: Sequence[Row]) -> str:
    """Returns the table of some steps, its columns below one another."""
    lines = [HEADERS, *(it.fields() for it in found)]
    widths = [max(len(it[at]) for it in lines) for at in range(len(HEADERS))]
    return "".join("  ".join(field.rjust(width) for field, width in zip(it, widths)).rstrip() + "\n" for it in lines)


# ---- steps that refuse much ----


class Broken(NamedTuple):
    """A layer of which a step broke more records than is taken without a word: how many, and of how many."""

    label: str
    broken: int
    records: int


def need_fine(broken: Sequence[Broken], layers: Sequence[reading.Layer], grid: grids.Grid, say: Callable[[str], None], takes: bool) -> None:
    """Stopped where the step of a grid breaks more than 1% of the records of a layer, and a finer one reaches all; `takes` only says so."""
    for it in broken:
        if 100 * it.broken <= it.records:
            continue
        decimals = proposing.Decimals()
        extent = reading.extent(layers, decimals)
        finer = proposing.proposed(extent, None, decimals=decimals) if extent else grid
        said = f"{it.label}: {it.broken:,} of {number_of(it.records, 'record')} {'is' if it.broken == 1 else 'are'} valid in the source, and broken by the step {grid.spelled[0]}"
        if Decimal(finer.spelled[0]) >= Decimal(grid.spelled[0]):
            say(f"{said}; no finer one reaches all")
        elif takes:
            say(f"{said}; --grid {finer.spelled[0]} --origin {','.join(finer.spelled[1])} reaches all")
        else:
            raise Stopped(f"{said}: --grid {finer.spelled[0]} --origin {','.join(finer.spelled[1])} is finer, --steps compares steps, "
                          "and --anyway imports the others", DATA)
        return


def better(layers: Sequence[reading.Layer], means: Means, refused: int, extent: Optional[proposing.Extent]) -> Optional[grids.Grid]:
    """Returns the next coarser grid where that refuses fewer records than were refused, else None."""
    if extent is None:
        return None
    grid = proposing.coarser(extent, means.grid)
    row = tried(layers, means._replace(grid=grid, compares=False, invalid="leave-out" if means.invalid == "stop" else means.invalid))
    return grid if row.refused < refused else None


def proposal(layers: Sequence[reading.Layer], metres: Optional[float], step: str, origin: str) -> tuple[proposing.Proposal, Optional[proposing.Extent]]:
    """Returns the grid that is proposed for layers, of which a step or an origin may be given, and their extent."""
    decimals = proposing.Decimals()
    extent = reading.extent(layers, decimals)
    return proposing.proposal(extent, metres, step, origin, decimals), extent


