"""The command sfq-audit: it compares other engines with sfq, and writes what sfq says for the tests of others.

    sfq-audit run --engine shapely --random 100000 --seed 1
    sfq-audit write --format jts-xml --random 160 --family corners

None of it is proved; the answers of sfq are.
"""
from __future__ import annotations

import argparse
import contextlib
import functools
import math
import sys
from typing import Iterable, Optional

from sfq import __version__
from sfq.commands import endings
from sfq.commands.endings import DATA, DONE, USAGE, Stopped
from sfq.commands.outputs import Output, are_one

from . import families, reports, sources, writing
from .asking import LACKING, Engine, Sfq
from .engines import ASKS, Lacking, listed
from .families import Pair
from .finding import Every, Finding
from .smaller import Small, made_smaller

NAME = "sfq-audit"
DIFFER = 1
STATUSES = ("exit status: 0 all agree, 1 an engine differs, 2 the command line, 4 a record that isn't a pair, or no pair is compared, 6 a file, a database "
            "or the output, 7 out of memory, 8 sfq or an engine isn't there or sfq fails, 130 interrupted; if it ends early, it reports what was "
            "found before")
OF_WRITING = ("exit status: 0 all pairs are written, 2 the command line, 4 a record that isn't a pair, or pairs that sfq refuses are left out, 6 a "
              "file, a database or the output, 7 out of memory, 8 sfq isn't there or fails, 130 interrupted")
say = functools.partial(endings.say, NAME)


def whole(least: int, most: Optional[int] = None) -> "functools.partial[int]":
    return functools.partial(number, least, most)


def number(least: int, most: Optional[int], text: str) -> int:
    """Returns a number of the command line. ArgumentTypeError where it isn't whole, or out of its range."""
    try:
        found = int(text)
    except ValueError:
        raise argparse.ArgumentTypeError(f"{text!r} isn't a whole number") from None
    if found < least or (most is not None and found > most):
        raise argparse.ArgumentTypeError(f"{found} isn't from {least} to {most}" if most is not None else f"{found} is below {least}")
    return found


def seconds(text: str) -> float:
    """Returns a time of the command line. ArgumentTypeError where it isn't above 0."""
    try:
        found = float(text)
    except ValueError:
        raise argparse.ArgumentTypeError(f"{text!r} isn't a number") from None
    if not 0 < found < math.inf:
        raise argparse.ArgumentTypeError(f"{text} isn't a time above 0")
    return found


def parser() -> argparse.ArgumentParser:
    found = argparse.ArgumentParser(
        prog=NAME, description="Compares other engines with sfq, whose answers are proved, and reports where they differ.", epilog=STATUSES)
    found.add_argument("--version", action="version", version=f"{NAME} {__version__}")
    commands = found.add_subparsers(dest="command", required=True, metavar="COMMAND")
    run = commands.add_parser("run", help="ask engines for pairs of geometries, and report where they differ", epilog=STATUSES)
    add = run.add_argument
    add_sources(run)
    add("--engine", metavar="ENGINE", action="append", required=True, help=f"the engine: {listed()}; several in turn")
    add("--ask", choices=ASKS, default=ASKS[0], help="what engines are asked for (matrix; predicates if an engine has no matrices)")
    add("--format", choices=tuple(reports.FORMATS), default="text", help="how the report is written (text)")
    add("--output", metavar="FILE", default="", help="write the report into a file, which appears as a whole at the end")
    add("--all", metavar="FILE", default="", help="write each pair that differs into a CSV file")
    add("--tests", metavar="FILE", default="", help="write the cases as tests, in the XML of JTS's tests")
    add("--cases", type=whole(0), default=20, metavar="N", help="report at most N cases of an engine (20)")
    add("--tries", type=whole(0), default=3000, metavar="N", help="try at most N pairs to make each case smaller; 0 leaves it as it is (3000)")
    add("--patience", type=seconds, default=5.0, metavar="SECONDS", help="how long an engine may be silent (5)")
    write = commands.add_parser("write", help="write pairs, with their matrices and predicates, for the tests of other engines", epilog=OF_WRITING)
    add = write.add_argument
    add_sources(write)
    add("--format", choices=tuple(writing.FORMS), required=True, help="the XML of JTS's tests, a record or a feature for each pair")
    add("--predicates", choices=writing.PREDICATES_OF, default=writing.ALL, help="the predicates for which jts-xml has a test (all)")
    add("--output", metavar="FILE", default="", help="write into a file, which appears as a whole at the end")
    return found


def add_sources(parser: argparse.ArgumentParser) -> None:
    """Adds the words that say where pairs come from, and which program says what is right."""
    add = parser.add_argument
    add("file", metavar="FILE", nargs="?", help="a CSV file of pairs, without a header; - for standard input")
    add("--random", type=whole(1), metavar="N", help="make N pairs")
    add("--seed", type=int, default=1, metavar="S", help="what the pairs are made from (1)")
    add("--family", choices=tuple(families.ALL_FAMILIES), action="append", default=[],
        help=f"make pairs of this family, several in turn (all but {', '.join(families.NAMED_ALONE)})")
    add("--scale", type=whole(1, families.MOST), metavar="N", help="scale made pairs by up to N (by several scales)")
    add("--sql", nargs=2, metavar=("DATABASE", "QUERY"), help="take the pairs of a query of two columns of well-known text, of a file of SQLite, or of "
        "PostgreSQL by postgresql://..")
    add("--layers", nargs=2, metavar="SOURCE", help="take the geometries of two sources that GDAL reads whose envelopes meet, by sfq-import; needs --grid")
    add("--grid", metavar="STEP", help="the size of a step of the grid of --layers, in their units")
    add("--sfq", metavar="PROGRAM", default="", help="the program sfq; else it is beside this command, or on the path")


def pairs_of(options: argparse.Namespace) -> tuple[str, Iterable[Pair], Optional[int]]:
    """Returns where the pairs come from, as the report says it, the pairs, and how many there are where that is known. Stopped where none is named."""
    given = [options.file is not None, options.random is not None, options.sql is not None, options.layers is not None]
    if sum(given) != 1:
        raise Stopped("name a file of pairs, or --random, --sql or --layers: one of them", USAGE)
    if options.file is not None:
        return options.file, sources.of_file(options.file), None
    if options.sql is not None:
        return f"of a query: {options.sql[1]}", sources.of_query(*options.sql), None
    if options.layers is not None:
        if not options.grid:
            raise Stopped("--layers needs --grid, the size of a step", USAGE)
        return f"of {' and '.join(options.layers)}, grid {options.grid}", sources.of_layers(options.layers, options.grid), None
    names = options.family or list(families.FAMILIES)
    scale = "" if options.scale is None else f", scale {options.scale}"
    source = f"made: {options.random} of {', '.join(names)}, seed {options.seed}{scale}"
    return source, families.pairs(options.random, options.seed, names, options.scale), options.random


def engines_of(options: argparse.Namespace) -> tuple[list[Engine], bool]:
    """Returns the engines that are there, and whether all are. A line names what isn't installed. Stopped where one isn't known."""
    found, is_whole = [], True
    for it in options.engine:
        try:
            found.append(Engine(it, options.ask, options.patience))
        except ValueError as error:
            raise Stopped(str(error), USAGE) from None
        except Lacking as error:
            say(f"{it.partition(':')[0]}: {error}")
            is_whole = False
    return found, is_whole


def run(options: argparse.Namespace) -> int:
    """Runs an audit, and returns its status."""
    source, pairs, count = pairs_of(options)
    sfq = Sfq(options.sfq)
    engines, is_whole = engines_of(options)
    if not engines:
        return LACKING
    with contextlib.ExitStack() as stack:
        outputs: list[Output] = []
        for path in (options.output, options.tests, options.all):
            outputs.append(Output(path))
            stack.callback(outputs[-1].drop)
        report, tests, every = outputs
        finding = Finding(sfq, engines, options.cases, Every(every) if every.file else None)
        with finding.interrupts:
            cases = found_of(finding, pairs, count, options.tries)
            if finding.pairs or not finding.ended_by:
                handed_on(finding, tests, source, cases)
                deliver(finding, report, reports.FORMATS[options.format](finding, source, cases))
    for error in (finding.ended_by, finding.failed):
        if error:
            text, status = endings.outcome(error)
            say(text)
            return status
    if not finding.compared:
        raise Stopped("no pair is compared", DATA)
    return DIFFER if finding.differing else DONE if is_whole else LACKING


def found_of(finding: Finding, pairs: Iterable[Pair], count: Optional[int], tries: int) -> list[Small]:
    """Asks for all pairs, and returns the cases. Its engines are ended then."""
    try:
        finding.run(pairs, count)
        cases = made_smaller(finding, tries)
        if finding.interrupts.waits:
            finding.end(KeyboardInterrupt())
    finally:
        for it in finding.counts:
            finding.unless_failed(it.engine.stop)
    if finding.every:
        finding.unless_failed(finding.every.close)
    return cases


def handed_on(finding: Finding, tests: Output, source: str, cases: list[Small]) -> None:
    """Writes the cases that have a matrix as tests of other engines, each once."""
    pairs = {it.case.pair: Pair(it.case.number - 1, it.case.family, *it.case.pair) for it in cases}

    def write() -> None:
        if tests.file:
            form = writing.JtsXml(tests.file, f"where an engine differs: {source}")
            writing.write(writing.Left().taken(writing.asked(finding.sfq, pairs.values())), form, finding.progress)
            tests.keep()

    finding.unless_failed(write, tests.path)


def deliver(finding: Finding, output: Output, text: str) -> None:
    """Writes the report into its file, which is there as a whole then; on standard output where there is none, or it can't be written."""

    def write() -> bool:
        if output.file:
            output.file.write(text)
            output.keep()
        return bool(output.file)

    if not finding.unless_failed(write, output.path):
        sys.stdout.write(text)
        sys.stdout.flush()


def write_pairs(options: argparse.Namespace) -> int:
    """Writes pairs with what sfq says of them, and returns the status."""
    source, pairs, _ = pairs_of(options)
    sfq, left = Sfq(options.sfq), writing.Left()
    if options.random is None:
        cases = left.taken(writing.asked(sfq, pairs))
    else:
        cases = writing.drawn(sfq, options.random, options.seed, options.family, options.scale)
    writing.run(options.format, options.predicates, source, cases, options.output)
    if left.count:
        raise Stopped(left.text, DATA)
    return DONE


def run_words(words: Optional[list[str]]) -> int:
    """Does what the words say, and returns the status."""
    found = parser()
    options = found.parse_args(words)
    if options.command == "write":
        return write_pairs(options)
    twice = are_one([options.output, options.tests, options.all])
    if twice:
        found.error(f"two of --output, --tests and --all name one file, {twice}")
    return run(options)


def main(words: Optional[list[str]] = None) -> int:
    """Runs the command, and returns its status."""
    return endings.ended(NAME, lambda: run_words(words))


if __name__ == "__main__":
    sys.exit(main())
