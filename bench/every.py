#!/usr/bin/env python3
"""Takes all figures of bench/README.md anew: runs the programs that have a table there one after another, each with its options.

Each program writes its tables in place, with the day and the commit above them, and `all.py` and `scale.py` draw their pictures. The
first line of bench/README.md then says of which day, commit and machine the figures are, and which are older. A program that ends
otherwise than well, such as one without its peer, leaves its tables as they were, and is listed as kept. `--instructions` runs only
those whose figures don't depend on the clock, `--times` the others, which want a quiet machine. The programs that look for mistakes
and write no table run too.

At its end it prints what was written and how long each program took; the tables that have other figures than those of this run, with
their day; and the lines of prose with a figure that was in a table and changed by more than a tenth, for a writer to mend: those of
bench/README.md, and of README.md and docs in paragraphs that name bench. It ends with status 1 where a program didn't end well. It measures what ./build,
./build --library, ./build --tiles, ./build --javascript, and `rt run` in crates/gauge have made of the present sources.
"""

import argparse
import os
import pathlib
import runpy
import shlex
import signal
import subprocess
import sys
import textwrap
import time
from typing import Callable, NamedTuple, Sequence, Union

import figures
import machine
from gauged import GAUGE
from timing import README, ROOT

runpy.run_path(str(ROOT / "tools" / "paths.py"))
import library
import repository
import tiles
from sfq.commands import endings

COUNTS, TIMES = "instructions", "times"


class Measure(NamedTuple):
    """A program of this folder with its options, whether its figures are counts or times, what has to be built for it, and whether it
    has a table."""

    words: str
    kind: str
    builds: tuple[str, ...]
    has_table: bool = True


# All programs of this folder. bench/README.md names those with a table by these words.
MEASURES = (
    Measure("all.py", COUNTS, ("sfq",)),
    Measure("compare.py --instructions", COUNTS, ("sfq",)),
    Measure("indexes.py", COUNTS, ("library",)),
    Measure("databases.py --profile", COUNTS, ("library",)),
    Measure("prepared.py", COUNTS, ("library",)),
    Measure("windows.py --instructions", COUNTS, ("sfq",)),
    Measure("joins.py --instructions", COUNTS, ("sfq",)),
    Measure("near_edges.py", COUNTS, ()),
    Measure("pair_files.py --instructions 20000", COUNTS, ("sfq",)),
    Measure("points.py", COUNTS, ("sfq", "gauge"), False),
    Measure("limits.py", COUNTS, ("sfq",), False),
    Measure("pairs.py", COUNTS, ("gauge",), False),
    Measure("all.py --time", TIMES, ("sfq",)),
    Measure("compare.py --repeats 15", TIMES, ("sfq",)),
    Measure("areas.py --repeats 2", TIMES, ("gauge",)),
    Measure("frames.py", TIMES, ("library",)),
    Measure("javascript.py", TIMES, ("library", "package")),
    Measure("relate.py --repeats 2", TIMES, ("gauge",)),
    Measure("peer_benchmarks.py", TIMES, ("library",)),
    Measure("windows.py --repeats 5", TIMES, ("sfq",)),
    Measure("joins.py --repeats 4", TIMES, ("sfq",)),
    Measure("joins.py --sqlite --repeats 3", TIMES, ("sfq", "library")),
    Measure("worst.py --seconds 5 --repeats 3 --jobs 3", TIMES, ("sfq",)),
    Measure("worst.py --profile --seconds 120 --repeats 1", TIMES, ("sfq",)),
    Measure("pair_files.py", TIMES, ("sfq",)),
    Measure("stream.py --repeats 15", TIMES, ("sfq",)),
    Measure("imports.py", TIMES, ("library",)),
    Measure("attack.py", TIMES, ("sfq",), False),
    Measure("scale.py --repeats 2 --sizes 10000 100000 1000000 10000000", TIMES, ("sfq", "tiles")),
)
# Those that want Debian's Python, for its packages.
DEBIAN, OF_DEBIAN = "/usr/bin/python3", ("frames.py",)
PACKAGE = ROOT / "bindings" / "javascript" / "out" / "sfq"


def is_gauge_made() -> bool:
    """Whether the program gauge is there, and is later than the sources of the crates: than their files or, where git has them
    unchanged, than their last commit, since a checkout makes files new."""
    if not GAUGE.exists():
        return False
    changed = max(it.stat().st_mtime for it in ROOT.glob("crates/*/src/**/*.rt"))
    committed = machine.git("log", "-1", "--format=%ct", "--", "crates")
    if committed and not machine.git("status", "--porcelain", "--", "crates"):
        changed = min(changed, int(committed))
    return changed <= GAUGE.stat().st_mtime


# What builds make, by their names: the command, and whether it is there, of the present sources.
Builds = dict[str, tuple[str, Callable[[], bool]]]
BUILDS: Builds = {
    "sfq": ("./build", repository.is_built),
    "library": ("./build --library", library.are_made),
    "tiles": ("./build --tiles", tiles.is_made),
    "package": ("./build --javascript", PACKAGE.exists),
    "gauge": ("`rt run` in crates/gauge", is_gauge_made),
}


class Outcome(NamedTuple):
    """What came of a measure: why it didn't end well, so that its tables are kept, or nothing; and how many seconds it took."""

    measure: Measure
    fault: Union[str, int]
    seconds: float

    @property
    def word(self) -> str:
        """What became of its tables."""
        if not self.measure.has_table:
            return "not well" if self.fault else "well"
        return "kept" if self.fault else "written"


def lacking(measure: Measure, builds: Builds) -> str:
    """Why a measure can't be made, or nothing."""
    missing = [command for name, (command, is_made) in builds.items() if name in measure.builds and not is_made()]
    return f"needs {', '.join(missing)}" if missing else ""


def run(measure: Measure, folder: pathlib.Path, builds: Builds) -> Outcome:
    """Runs a program, and passes on what it prints; returns what came of it."""
    began = time.monotonic()
    reason: Union[str, int] = lacking(measure, builds)
    print(f"-- {measure.words}", file=sys.stderr, flush=True)
    if not reason:
        name, *more = shlex.split(measure.words)
        python = DEBIAN if name in OF_DEBIAN and os.path.exists(DEBIAN) else sys.executable
        words = [python, "-B", str(folder / name), *more, *(["--write"] if measure.has_table else [])]
        # In a session of its own, so that it hears of Ctrl-C once, from here, and removes its temporary files.
        with subprocess.Popen(words, start_new_session=True, stdout=subprocess.PIPE, stderr=subprocess.STDOUT, text=True) as running:
            last = ""
            try:
                for line in running.stdout or ():
                    print(line, end="", file=sys.stderr, flush=True)
                    last = line.strip() or last
            except BaseException:
                running.send_signal(signal.SIGINT)
                raise
        reason = running.returncode and (last or f"status {running.returncode}")
    return Outcome(measure, reason, time.monotonic() - began)


def older(shown: Sequence[figures.Shown], day: str, commit: str) -> list[figures.Shown]:
    """The tables with figures of before a day or of another commit."""
    return [it for it in shown if it.day and (it.day < day or it.commit != commit)]


def first_line(shown: Sequence[figures.Shown], day: str, commit: str) -> str:
    """The first lines of the document: the day, the commit and the machine of the figures that were taken last, and which are older."""
    text = f"Figures of {day}, commit {commit}: {machine.processor()}; {machine.system()}."
    said = dict.fromkeys(f"'{it.section}' ({it.day if str(it.day) < day else f'commit {it.commit}'})" for it in older(shown, day, commit))
    if said:
        text += f" Older ones are below {', '.join(said)}."
    return textwrap.fill(text, 100, break_on_hyphens=False, break_long_words=False)


def with_first_line(text: str, line: str) -> str:
    """A document in which the first lines after its heading say of when the figures are."""
    heading, _, rest = text.split("\n", 2)
    if rest.startswith("Figures of "):
        rest = rest.split("\n\n", 1)[1]
    return f"{heading}\n\n{line}\n\n{rest}"


def changes(before: str, after: str) -> dict[str, figures.Changes]:
    """The figures that changed by more than a tenth between two texts of a document, by heading."""
    now = {it.heads: it for it in figures.tables(after)}
    found: dict[str, figures.Changes] = {}
    for it in figures.tables(before):
        if it.day and it.heads in now:
            found.setdefault(it.section, {}).update(figures.changed(it, now[it.heads]))
    return found


class Report:
    """What a run has done to the document with the measures."""

    def __init__(self, readme: pathlib.Path, documents: dict[str, pathlib.Path]) -> None:
        self.readme, self.documents = readme, documents
        self.before = readme.read_text()
        self.now = machine.day(), machine.commit()
        self.outcomes: list[Outcome] = []

    def close(self) -> int:
        """Writes the first line where figures were taken, and prints what was done; returns the status."""
        text = self.readme.read_text()
        if any(it.word == "written" for it in self.outcomes):
            text = with_first_line(text, first_line(figures.tables(text), *self.now))
            repository.write_whole(str(self.readme), text)
        self.print_outcomes(text)
        self.print_prose(text)
        return 1 if any(it.fault for it in self.outcomes) else 0

    def print_outcomes(self, text: str) -> None:
        """Prints the measures, and the tables that are older."""
        for it in self.outcomes:
            print(f"{it.word:9}{it.seconds:7,.0f} s  {it.measure.words}{f': {it.fault}' if it.fault else ''}")
        print(f"{'in all':9}{sum(it.seconds for it in self.outcomes):7,.0f} s")
        for table in older(figures.tables(text), *self.now):
            print(f"older, of {table.day}, commit {table.commit}: {table.section}: {table.heads}")

    def print_prose(self, text: str) -> None:
        """Prints the lines of prose whose figures aren't those of the tables any longer."""
        by_section = changes(self.before, text)
        found = list(figures.lines_to_mend(text, "bench/README.md", by_section))
        for name, path in self.documents.items():
            found += figures.lines_elsewhere(path.read_text(), name, by_section)
        for line in found:
            print(line)
        for section, numbers in figures.other_lines(text, by_section).items():
            print(f"bench/README.md: {section}: look at the other figures too, in the lines {', '.join(map(str, numbers))}")


def documents() -> dict[str, pathlib.Path]:
    """The other documents that may have figures in prose, by their names."""
    return {str(it.relative_to(ROOT)): it for it in (ROOT / "README.md", *sorted(ROOT.glob("docs/*.md")))}


def chosen(options: argparse.Namespace) -> list[Measure]:
    """The measures that are asked for."""
    kinds = [it for it, is_asked in ((COUNTS, options.instructions), (TIMES, options.times)) if is_asked] or [COUNTS, TIMES]
    def has(measure: Measure, words: Sequence[str]) -> bool:
        return any(it in measure.words for it in words)

    return [it for it in MEASURES if it.kind in kinds and has(it, options.only or [""]) and not has(it, options.without)]


def main() -> int:
    about, *more = __doc__.split("\n\n")
    parser = argparse.ArgumentParser(description=about, epilog="\n".join(more))
    parser.add_argument("--instructions", action="store_true", help="only what doesn't depend on the clock")
    parser.add_argument("--times", action="store_true", help="only what does, on a quiet machine")
    parser.add_argument("--only", nargs="+", default=[], metavar="WORD", help="the programs whose words have one of these")
    parser.add_argument("--without", nargs="+", default=[], metavar="WORD", help="none of the programs whose words have one of these")
    parser.add_argument("--list", action="store_true", help="print what would be run, and what has to be built for it, and run nothing")
    options = parser.parse_args()
    asked = chosen(options)
    if options.list:
        for it in asked:
            print(f"{it.kind:14}{it.words}{f': {lacking(it, BUILDS)}' if lacking(it, BUILDS) else ''}")
        return 0
    for number in signal.SIGINT, signal.SIGTERM, signal.SIGHUP:
        signal.signal(number, end_well)
    if any(it.kind == TIMES for it in asked) and os.getloadavg()[0] > 1:
        print(f"the machine isn't quiet: its load is {os.getloadavg()[0]:.1f}", file=sys.stderr)
    return run_all(asked, pathlib.Path(__file__).resolve().parent, BUILDS, Report(README, documents()))


def end_well(number: int, _: object) -> None:
    """Has a signal end the run as Ctrl-C does; a second one isn't heard."""
    signal.signal(number, signal.SIG_IGN)
    raise KeyboardInterrupt


def run_all(asked: list[Measure], folder: pathlib.Path, builds: Builds, report: Report) -> int:
    """Runs the measures, prints the report of those that have ended, whatever ends the run, and returns the status."""
    try:
        for it in asked:
            report.outcomes.append(run(it, folder, builds))
    except KeyboardInterrupt:
        print("broken off", file=sys.stderr)
        report.close()
        return 130
    return report.close()


if __name__ == "__main__":
    sys.exit(endings.ended("every.py", main))
