"""Asks for batches of pairs, compares the answers, and keeps counts and cases of where they differ."""
from __future__ import annotations

import contextlib
import csv
import itertools
import signal
import time
from collections import Counter
from typing import Any, Callable, Iterable, Iterator, NamedTuple, Optional, TypeVar

from sfq.commands.endings import FILES, Stopped, outcome
from sfq.commands.outputs import Output
from sfq.commands.progress import Progress
from sfq.geometry.counts import number_of

from . import comparing
from .asking import Engine, Failure, Sfq
from .comparing import Difference, Expected
from .engines import MATRIX, Two
from .families import Pair
from .sources import GIVEN

# How many pairs are asked for at once: fewer where they take longer than some seconds, so that Ctrl-C loses little.
FEWEST, MOST = 50, 5_000
SHORT, LONG = 1.0, 4.0
HEADER = ("engine", "family", "number", "first", "second", "asked", "sfq", "engine_answer")
# What ends a run early; what was found before is kept.
EARLY = (KeyboardInterrupt, MemoryError, OSError, Stopped)
Done = TypeVar("Done")


class Case(NamedTuple):
    """A pair of which an engine's answer differs from sfq's. Pairs are numbered from 1."""

    engine: str
    ask: str
    family: str
    number: int
    pair: Two
    wanted: str
    answer: str
    difference: Difference


def shown(answer: Any) -> str:
    """Returns an answer as a text."""
    return answer.kind if isinstance(answer, Failure) else str(answer)


class Counts:
    """What was counted of an engine: how many pairs it was asked, and its differences by family and kind, cell and predicate."""

    def __init__(self, engine: Engine) -> None:
        self.engine, self.asked = engine, 0
        self.of_family: Counter[tuple[str, str]] = Counter()
        self.of_cell: Counter[str] = Counter()
        self.of_predicate: Counter[str] = Counter()
        self.cases: list[Case] = []
        self.kinds: set[tuple[str, Difference]] = set()

    @property
    def differing(self) -> int:
        return sum(self.of_family.values())

    def add(self, case: Case, most: int) -> None:
        """Counts a case, and keeps it where it is the first of its family and kind."""
        self.of_family[case.family, case.difference.kind] += 1
        if case.ask == MATRIX and case.difference.names:
            self.of_cell.update(case.difference.names)
            self.of_predicate.update(comparing.predicates_differing(case.pair, case.wanted, case.answer))
        elif case.difference.names:
            self.of_predicate.update(case.difference.names)
        kind = case.family, case.difference
        if kind not in self.kinds and len(self.cases) < most:
            self.kinds.add(kind)
            self.cases.append(case)


class Every:
    """A CSV file of each pair that differs, which takes its place when it is closed. Stopped where it can't be written."""

    def __init__(self, output: Output) -> None:
        assert output.file
        self.output, self.file = output, output.file
        self.writer = csv.writer(self.file, lineterminator="\n")
        self.add(HEADER)

    def add(self, row: tuple[Any, ...]) -> None:
        self.done(lambda: self.writer.writerow(row))

    def flush(self) -> None:
        self.done(self.file.flush)

    def close(self) -> None:
        self.done(self.output.keep)

    def done(self, does: Callable[[], object]) -> None:
        try:
            does()
        except OSError as error:
            raise Stopped(f"{self.output.path}: {error.strerror}", FILES) from None


class Interrupts:
    """Ctrl-C while a run is taken: the first ends what may end, or waits until something may; the next one ends the command at once.

    So it never comes between a count and the row of the file that is counted, or in the midst of the report.
    """

    def __init__(self) -> None:
        self.may_end = self.came = self.waits = False

    def __enter__(self) -> None:
        self.before = signal.getsignal(signal.SIGINT)
        # It stays ignored where it is, as in the background of a shell.
        if self.before is signal.default_int_handler:
            signal.signal(signal.SIGINT, self.come)

    def __exit__(self, *_: object) -> None:
        if self.before is signal.default_int_handler:
            signal.signal(signal.SIGINT, self.before)

    def come(self, *_: object) -> None:
        is_taken, self.waits = self.came or self.may_end, not (self.came or self.may_end)
        self.came, self.may_end = True, False
        if is_taken:
            raise KeyboardInterrupt

    def taken(self) -> None:
        """KeyboardInterrupt where one waits."""
        if self.waits:
            self.waits = False
            raise KeyboardInterrupt

    @contextlib.contextmanager
    def ending(self) -> Iterator[None]:
        """What may end."""
        self.may_end = True
        try:
            self.taken()
            yield
        finally:
            self.may_end = False

    @contextlib.contextmanager
    def held(self) -> Iterator[None]:
        """A part of it that is done as a whole."""
        self.may_end, before = False, self.may_end
        yield
        self.may_end = before
        self.taken()


class Finding:
    """What a run has found so far."""

    def __init__(self, sfq: Sfq, engines: list[Engine], most: int, every: Optional[Every] = None) -> None:
        self.sfq, self.most, self.every, self.progress = sfq, most, every, Progress("sfq-audit", wait=1.0)
        self.interrupts = Interrupts()
        self.counts = [Counts(it) for it in engines]
        self.pairs = self.compared = 0
        self.of_fault: Counter[str] = Counter()
        # The first pair given that sfq refuses, and why.
        self.first_refused = ""
        # By what it ended early, and what failed behind it.
        self.ended_by: Optional[BaseException] = None
        self.failed: Optional[BaseException] = None

    @property
    def differing(self) -> int:
        return sum(it.differing for it in self.counts)

    @property
    def ended_early(self) -> str:
        """Why it ended early; nothing where it didn't."""
        return outcome(self.ended_by)[0] if self.ended_by else ""

    def end(self, error: BaseException) -> None:
        """Keeps by what it ended early: the first of several."""
        self.ended_by = self.ended_by or error

    def unless_failed(self, does: Callable[[], Done], path: str = "") -> Optional[Done]:
        """Does what comes behind the run, such as writing a file, and returns what it returns. What fails is kept, and None returned."""
        try:
            return does()
        except EARLY as error:
            if path and isinstance(error, OSError):
                error = Stopped(f"{path}: {error.strerror or error}", FILES)
            self.failed = self.failed or error
            return None

    def run(self, pairs: Iterable[Pair], of: Optional[int]) -> None:
        """Asks for all pairs. Where it is interrupted, or sfq, the source of the pairs or a file fails, what was found stays."""
        try:
            with self.interrupts.ending():
                left, size = iter(pairs), FEWEST
                while batch := list(itertools.islice(left, size)):
                    began = time.monotonic()
                    self.take(batch)
                    took = time.monotonic() - began
                    size = min(2 * size, MOST) if took < SHORT else max(size // 2, FEWEST) if took > LONG else size
                    self.progress.show(f"{f'{self.pairs:,} of ' if of else ''}{number_of(of or self.pairs, 'pair')}, {number_of(self.differing, 'differs', 'differ')}")
        except EARLY as error:
            self.end(error)
        finally:
            self.progress.clear()

    def take(self, batch: list[Pair]) -> None:
        """Asks sfq and each engine for a batch."""
        known: dict[str, list[Expected]] = {}
        texts = [(it.first, it.second) for it in batch]
        for counts in self.counts:
            ask = counts.engine.ask
            if ask not in known:
                known[ask] = comparing.expected(self.sfq, ask, texts)
        with self.interrupts.held():
            self.count(batch, known[self.counts[0].engine.ask])
        for counts in self.counts:
            self.compare(counts, batch, texts, known[counts.engine.ask])
        if self.every:
            with self.interrupts.held():
                self.every.flush()

    def count(self, batch: list[Pair], first: list[Expected]) -> None:
        """Counts the pairs of a batch, those that are compared, and the faults of the others."""
        for pair, it in zip(batch, first):
            if it.fault:
                self.of_fault[it.fault.removeprefix("first ").removeprefix("second ").split()[0]] += 1
                if pair.family == GIVEN and not self.first_refused:
                    self.first_refused = f"record {pair.number + 1}: {it.fault}"
        self.pairs += len(batch)
        self.compared += sum(not it.fault for it in first)

    def compare(self, counts: Counts, batch: list[Pair], texts: list[Two], wanted: list[Expected]) -> None:
        """Asks an engine for the pairs that sfq has an answer to, and counts the differences."""
        if counts.engine.note:
            return
        places = [at for at, it in enumerate(wanted) if not it.fault]
        answers = counts.engine.answers([texts[at] for at in places])
        with self.interrupts.held():
            counts.asked += len(answers)
            for at, answer in zip(places, answers):
                # Most are the same text.
                if answer != wanted[at].answer:
                    self.differs(counts, batch[at], texts[at], wanted[at], answer)

    def differs(self, counts: Counts, it: Pair, pair: Two, wanted: Expected, answer: Any) -> None:
        """Counts an answer that is another text, where it differs."""
        engine = counts.engine
        found = comparing.difference(engine.ask, wanted, answer)
        if not found:
            return
        case = Case(engine.spelled, engine.ask, it.family, it.number + 1, pair, wanted.answer, shown(answer), found)
        counts.add(case, self.most)
        if self.every:
            self.every.add((case.engine, case.family, case.number, *case.pair, case.ask, case.wanted, case.answer))
