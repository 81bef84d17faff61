"""Makes a pair smaller, as long as the engine still differs: parts, then positions, then numbers."""
from __future__ import annotations

from typing import Any, Iterator, NamedTuple, Optional, TypeVar

from sfq.commands.endings import Stopped

from . import comparing
from .asking import Engine, Sfq
from .drawing import drawing
from .engines import MATRIX, VALIDITY, Two
from .finding import EARLY, Case, Finding, shown
from .shapes import LINESTRING, MULTIPOINT, ONE, POLYGON, POINT, Line, Shape, read

# How many smaller pairs are asked for at once.
AT_ONCE = 60
Both = tuple[Shape, Shape]
# A list, or what can be cut as one.
Pieces = TypeVar("Pieces", list[Any], bytes)


class Small(NamedTuple):
    """A case as small as it got, the pair that it was, why sfq's answer is so, and a drawing."""

    case: Case
    original: Two
    why: list[str]
    svg: str


def without(items: list[Line], at: int) -> list[Line]:
    return items[:at] + items[at + 1 :]


def stretches(pieces: Pieces) -> Iterator[Pieces]:
    """Yields the pieces without a stretch of them: first halves, then quarters, and at last single ones."""
    size = (len(pieces) + 1) // 2
    while size:
        yield from (pieces[:at] + pieces[at + size :] for at in range(0, len(pieces), size))
        size //= 2


def fewer_parts(it: Shape) -> Iterator[Shape]:
    """Yields the shape without some elements, without a hole or a line, and as the type of one element."""
    yield from (Shape(it.word, rest) for rest in stretches(it.elements) if rest)
    if len(it.elements) == 1 and it.word in ONE:
        yield Shape(ONE[it.word], it.elements)
    for at, element in enumerate(it.elements):
        for hole in range(1, len(element)):
            yield Shape(it.word, [*it.elements[:at], without(element, hole), *it.elements[at + 1 :]])


def fewer_positions(it: Shape) -> Iterator[Shape]:
    """Yields the shape without some positions of a line or a ring, which stays closed."""
    for at, element in enumerate(it.elements):
        for part, line in enumerate(element):
            for shorter in shorter_lines(line, it.dimension):
                yield Shape(it.word, [*it.elements[:at], [*element[:part], shorter, *element[part + 1 :]], *it.elements[at + 1 :]])


def shorter_lines(line: Line, dimension: int) -> Iterator[Line]:
    if dimension == 0:
        return
    open_line = line[:-1] if dimension == 2 else line
    for rest in stretches(open_line):
        if len(rest) > dimension:
            yield rest + rest[:1] if dimension == 2 else rest


def other_types(it: Shape) -> Iterator[Shape]:
    """Yields a line or points in place of an area."""
    if it.dimension == 2 and it.elements:
        yield Shape(LINESTRING, [[it.elements[0][0]]])
        yield Shape(POLYGON, [it.elements[0][:1]])
    if it.dimension == 1 and it.elements:
        yield Shape(POINT, [[[it.elements[0][0][0]]]])
    if it.word == MULTIPOINT and len(it.elements) == 1:
        yield Shape(POINT, it.elements)


def mapped(both: Both, axis: int, places: dict[int, int]) -> Both:
    """Returns both shapes with other numbers on an axis."""
    def placed(it: Shape) -> Shape:
        return Shape(it.word, [[[(places[x], y) if axis == 0 else (x, places[y]) for x, y in line] for line in element] for element in it.elements])

    return placed(both[0]), placed(both[1])


def smaller_numbers(both: Both) -> Iterator[Both]:
    """Yields both shapes with smaller numbers: moved to 0, their order alone, and with each gap between two numbers made smaller."""
    for axis in (0, 1):
        known = sorted({p[axis] for it in both for line in it.lines for p in line})
        if not known:
            continue
        yield mapped(both, axis, {n: at for at, n in enumerate(known)})
        for divisor in (1000, 100, 10, 3, 2):
            yield mapped(both, axis, {n: (n - known[0]) // divisor for n in known})
        yield mapped(both, axis, {n: n - known[0] for n in known})
        for at in range(1, len(known)):
            gap = known[at] - known[at - 1]
            for less in {gap - 1, gap // 2, gap // 10, 1, gap}:
                if less:
                    yield mapped(both, axis, {n: n - less if n >= known[at] else n for n in known})
        for n in known:
            for other in {it for it in (n - 1, n + 1, n // 2, 0, *known[:1]) if abs(it) < abs(n)}:
                yield mapped(both, axis, {it: other if it == n else it for it in known})


def smaller_pairs(both: Both) -> Iterator[Both]:
    """Yields smaller pairs, those first that are likely to lose most."""
    for step in (other_types, fewer_parts, fewer_positions):
        yield from ((it, both[1]) for it in step(both[0]))
        yield from ((both[0], it) for it in step(both[1]))
    yield from smaller_numbers(both)


def size(both: Both) -> tuple[int, int, int]:
    """Returns how large a pair is: positions, characters, and the sum of the numbers."""
    numbers = sum(abs(n) for it in both for line in it.lines for p in line for n in p)
    return sum(it.size for it in both), sum(len(it.text) for it in both), numbers


class Reducer:
    """Makes cases of an engine smaller, by at most so many pairs each."""

    def __init__(self, sfq: Sfq, engine: Engine, tries: int) -> None:
        self.sfq, self.engine, self.tries = sfq, engine, tries

    def cases(self, pairs: list[Two], like: Case) -> list[Optional[Case]]:
        """Returns the case of each pair, None where the engine doesn't differ in the same way."""
        wanted = comparing.expected(self.sfq, like.ask, pairs)
        places = [at for at, it in enumerate(wanted) if not it.fault]
        answers = self.engine.answers([pairs[at] for at in places])
        found: list[Optional[Case]] = [None] * len(pairs)
        for at, answer in zip(places, answers):
            difference = comparing.difference(like.ask, wanted[at], answer)
            if difference and difference.kind == like.difference.kind and set(difference.names) <= set(like.difference.names):
                if bool(difference.names) == bool(like.difference.names):
                    found[at] = like._replace(pair=pairs[at], wanted=wanted[at].answer, answer=shown(answer), difference=difference)
        return found

    def smaller(self, case: Case) -> Iterator[Case]:
        """Yields the case smaller and smaller, for as long as it gets so."""
        both, left = (read(case.pair[0]), read(case.pair[1])), self.tries
        tried: set[Two] = set()
        while left > 0 and not self.engine.note:
            least = size(both)
            batch: list[Both] = []
            found = None
            for it in smaller_pairs(both):
                texts = it[0].text, it[1].text
                if size(it) >= least or texts in tried:
                    continue
                tried.add(texts)
                batch.append(it)
                if len(batch) == min(AT_ONCE, left):
                    found, left = self.first(batch, case), left - len(batch)
                    batch = []
                    if found or left <= 0:
                        break
            if not found and batch:
                found, left = self.first(batch, case), left - len(batch)
            if not found:
                break
            case, both = found
            yield case

    def first(self, batch: list[Both], like: Case) -> Optional[tuple[Case, Both]]:
        """Returns the smallest of a batch that still differs."""
        found = self.cases([(it[0].text, it[1].text) for it in batch], like)
        differing = [(case, it) for case, it in zip(found, batch) if case]
        return min(differing, key=lambda it: size(it[1])) if differing else None


def made_small(finding: Finding, engine: Engine, case: Case, tries: int, which: str) -> Small:
    """Returns a case made smaller by at most so many pairs, with the lines that show what differs, and its drawing.

    Where the run ended early it is left as it is. What ends it here is kept.
    """
    small = case
    try:
        finding.progress.show(f"makes case {which} smaller")
        if not finding.ended_by:
            with finding.interrupts.ending():
                for small in Reducer(finding.sfq, engine, tries).smaller(case):
                    pass
    except EARLY as error:
        finding.end(error)
    lines = reasons(finding, small)
    cells = tuple(f"{name} " for name in small.difference.names if small.ask == MATRIX)
    return Small(small, case.pair, [it for it in lines if not cells or it.startswith(cells)], drawing(small.pair, lines))


def reasons(finding: Finding, case: Case) -> list[str]:
    """Returns the lines of `sfq why`: of all cells, or of both geometries where it is asked whether they are valid; none where it fails."""
    texts: list[tuple[str, ...]] = [(it,) for it in case.pair] if case.ask == VALIDITY else [case.pair]
    try:
        return [line for it in texts for line in finding.sfq.why(*it)]
    except (MemoryError, OSError, Stopped) as error:
        finding.end(error)
        return []


def made_smaller(finding: Finding, tries: int) -> list[Small]:
    """Returns all cases, each made smaller by at most so many pairs."""
    both = [(counts.engine, case) for counts in finding.counts for case in counts.cases]
    found = [made_small(finding, engine, case, tries, f"{number} of {len(both)}") for number, (engine, case) in enumerate(both, 1)]
    finding.progress.clear()
    return found
