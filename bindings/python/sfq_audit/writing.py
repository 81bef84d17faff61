"""Pairs with what sfq says of them, in files that other engines' tests read.

    jts-xml  the XML of the tests of JTS, which GEOS has too: of each pair its matrix, and its predicates
    csv      a record for each pair: its matrix, and a column of 0 and 1 for each predicate
    geojson  a feature for each pair, a collection of its two geometries; matrix and predicates are properties

The matrices are those that `sfq pairs` prints, which are proved. The predicates are their patterns, and the files aren't proved.
"""
from __future__ import annotations

import itertools
import json
import sys
from typing import Callable, Iterable, Iterator, NamedTuple, Optional, Protocol, Sequence, Union
from xml.sax.saxutils import escape

from sfq.commands import exports
from sfq.commands.outputs import Output
from sfq.commands.progress import Progress
from sfq.geometry import texts
from sfq.geometry.counts import number_of

from . import families
from .asking import Sfq
from .families import Pair
from .predicates import NAMES as PREDICATES
from .predicates import held

# Which predicates a test of JTS's form is written for: all, those that hold, none.
ALL, HELD, NONE = PREDICATES_OF = ("all", "held", "none")
# What JTS calls a predicate, where it isn't as here: its `equals` without more compares positions.
OF_JTS = {"equals": "equalsTopo"}
# How many pairs are asked at once.
BATCH = 1000


class Sink(Protocol):
    """What takes the text of a file, piece by piece."""

    def write(self, text: str, /) -> object:
        ...


class Case(NamedTuple):
    """A pair, its matrix, and a character for each of PREDICATES: 1 where it holds, else 0."""

    pair: Pair
    matrix: str
    held: str

    @property
    def name(self) -> str:
        """What the pair is called: its family, and its number there."""
        return f"{self.pair.family} {self.pair.number}".strip()


class Refused(NamedTuple):
    """A pair that has no matrix, and why: `first V3 0`."""

    pair: Pair
    reason: str


def asked(sfq: Sfq, pairs: Iterable[Pair]) -> Iterator[Union[Case, Refused]]:
    """Yields what sfq says of each pair, in their order."""
    rest = iter(pairs)
    while batch := list(itertools.islice(rest, BATCH)):
        two = [(it.first, it.second) for it in batch]
        for pair, both, line in zip(batch, two, sfq.lines(two)):
            yield Refused(pair, line) if line[0] in "fs" else Case(pair, line, held(line, both))


def drawn(sfq: Sfq, count: int, seed: object, names: Sequence[str] = (), scale: Optional[int] = None) -> Iterator[Case]:
    """Yields so many pairs that sfq takes, of each family as many, its first ones; where that doesn't fit, one more of the first families.

    The pairs of a family are numbered from 1. KeyError for an unknown name.
    """
    known = list(names or families.FAMILIES)
    for at, name in enumerate(known):
        wanted = count // len(known) + (at < count % len(known))
        all_pairs = (Pair(0, name, *it) for it in families.drawn(name, seed, scale))
        taken = (it for it in asked(sfq, all_pairs) if isinstance(it, Case))
        for number, it in enumerate(itertools.islice(taken, wanted), 1):
            yield it._replace(pair=it.pair._replace(number=number))


# ---- the forms ----


class JtsXml:
    """The XML of JTS's tests: a run of cases, each with two geometries and tests of an operation."""

    def __init__(self, file: Sink, title: str, which: str = ALL) -> None:
        self.file, self.which = file, which
        file.write(f'<run>\n<desc>{escape(title)}</desc>\n<precisionModel type="FLOATING"/>\n')

    def add(self, case: Case) -> None:
        operations = [(f'name="relate" arg1="A" arg2="B" arg3="{case.matrix}"', "true")]
        for name, truth in zip(PREDICATES, case.held):
            if self.which == ALL or (self.which == HELD and truth == "1"):
                operations.append((f'name="{OF_JTS.get(name, name)}" arg1="A" arg2="B"', "true" if truth == "1" else "false"))
        tests = "".join([f"<test><op {words}>{result}</op></test>\n" for words, result in operations])
        self.file.write(f"<case>\n<desc>{escape(case.name)}</desc>\n<a>{case.pair.first}</a>\n<b>{case.pair.second}</b>\n{tests}</case>\n")

    def end(self) -> None:
        self.file.write("</run>\n")


class Csv:
    """A record for each pair, below a header."""

    def __init__(self, file: Sink, _title: str, _which: str = ALL) -> None:
        self.file = file
        file.write(f"family,number,first,second,matrix,{','.join(PREDICATES)}\n")

    def add(self, case: Case) -> None:
        pair = case.pair
        self.file.write(f'{pair.family},{pair.number},"{pair.first}","{pair.second}",{case.matrix},{",".join(case.held)}\n')

    def end(self) -> None:
        pass


class GeoJson:
    """A feature for each pair, of a collection of both geometries (RFC 7946). Outer rings go counterclockwise, holes clockwise."""

    def __init__(self, file: Sink, title: str, _which: str = ALL) -> None:
        self.file, self.is_first = file, True
        file.write(f'{{"type":"FeatureCollection","description":{json.dumps(title)},\n"features":[')

    def add(self, case: Case) -> None:
        pair = case.pair
        both = ",".join([exports.geometry_text(texts.coordinates(it), "[{0[0]},{0[1]}]".format) for it in (pair.first, pair.second)])
        known = {"family": pair.family, "number": pair.number, "matrix": case.matrix, **dict(zip(PREDICATES, map("1".__eq__, case.held)))}
        listed = json.dumps(known, separators=(",", ":"))
        self.file.write("\n" if self.is_first else ",\n")
        self.file.write(f'{{"type":"Feature","properties":{listed},"geometry":{{"type":"GeometryCollection","geometries":[{both}]}}}}')
        self.is_first = False

    def end(self) -> None:
        self.file.write("\n]}\n")


Form = Union[JtsXml, Csv, GeoJson]
FORMS: dict[str, Callable[[Sink, str, str], Form]] = {"jts-xml": JtsXml, "csv": Csv, "geojson": GeoJson}


# ---- the command ----


class Left:
    """Takes the pairs that sfq refuses out of what it says, and counts them."""

    def __init__(self) -> None:
        self.count, self.first = 0, ""

    def taken(self, found: Iterable[Union[Case, Refused]]) -> Iterator[Case]:
        """Yields the cases. Pairs are numbered from 1, as records are."""
        for it in found:
            number = it.pair.number + 1
            if isinstance(it, Case):
                yield it._replace(pair=it.pair._replace(number=number))
                continue
            self.count += 1
            self.first = self.first or f"record {number}: {it.reason}"

    @property
    def text(self) -> str:
        """What a command says of them."""
        return f"left out {self.count} of the pairs, which sfq refuses; the first is {self.first}"


def write(cases: Iterable[Case], form: Form, progress: Progress) -> None:
    """Writes cases, and the end of the file."""
    for count, it in enumerate(cases, 1):
        form.add(it)
        if count % BATCH == 0:
            progress.show(f"{number_of(count, 'pair')} written")
    form.end()
    progress.clear()


def run(form: str, which: str, title: str, cases: Iterable[Case], path: str = "") -> None:
    """Writes cases into a file, which is there as a whole at the end or not at all, or on standard output where no path is given."""
    output, progress = Output(path), Progress("sfq-audit")
    try:
        write(cases, FORMS[form](output.file or sys.stdout, title, which), progress)
        sys.stdout.flush()
        output.keep()
    finally:
        progress.clear()
        output.drop()
