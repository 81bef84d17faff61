"""The command line of sfq-scale, and the way of a query."""
import argparse
import gc
import os
import re
import resource
import shutil
import sys
import tempfile
from typing import Any, NoReturn, Optional, Union

from sfq.commands import endings
from sfq.commands.endings import held, say
from sfq.commands.progress import Progress
from sfq.commands.streams import Unwritten, standard_input
from sfq.geometry.counts import number_of

from . import VERSION, cluster, merging, plans, programs, query
from .faults import CLUSTER, FILES, QUERY, Ended, ended
from .schema import Table

NAME = "sfq-scale"
STATUSES = """exit status: that of sfq (2 the command line, 3 the schema, 4 a table, 5 the query, 6 a file, 7 memory), or 8: the cluster
can't be reached, has no worker left, has another program, or failed at a part too often"""
# The faults of a query's text, which sfq finds before it reads tables.
OF_TEXT = re.compile(rb"sfq: (?:Q(?:1|2|10|11|12)\b|query unreadable)")
MOST_PAIRS = 10_000_000_000
# What takes the answers of parts.
Taking = Union[merging.Count, merging.Rows]


def read_words(given: Optional[list[str]]) -> argparse.Namespace:
    """Reads the command line."""
    parser = argparse.ArgumentParser(prog="sfq-scale", description="Runs one query of sfq over tables of any number of rows, on a Dask cluster.", epilog=STATUSES)
    parser.add_argument("--version", action="version", version=f"sfq-scale {VERSION}")
    commands = parser.add_subparsers(dest="command", required=True, metavar="run")
    run = commands.add_parser("run", help="run a query", epilog=STATUSES)
    run.add_argument("schema", metavar="SCHEMA", help="the file of CREATE TABLE statements")
    run.add_argument("folder", metavar="DIR", help="the directory of the tables, t.csv for table t")
    run.add_argument("query", metavar="QUERY", help="the SELECT; @FILE takes it from a file, @- from standard input")
    run.add_argument("--scheduler", required=True, metavar="tcp://HOST:PORT", help="the scheduler of a running Dask cluster")
    run.add_argument("--send", action="store_true", help="send the program and the tables to the workers: they need no shared folder")
    run.add_argument("--explain", action="store_true", help="say on standard error how the query was split, and what that cost")
    run.add_argument("--rows", type=int, default=50_000, metavar="N", help="the rows of a tile or a stretch, about (50000; at most 100000)")
    run.add_argument("--most-pairs", type=int, default=MOST_PAIRS, metavar="N", help="the most pairs of a query that looks at them all")
    run.add_argument("--room", metavar="DIR", help="a folder for the tiles, which the workers see too (the folder for temporary files)")
    run.add_argument("--wait", type=float, default=30, metavar="SECONDS", help="how long to wait for a worker (30)")
    run.add_argument("--sfq", metavar="PATH", help="the program sfq; else it is beside this one, or on the path")
    run.add_argument("--worker-sfq", metavar="PATH", help="where workers find sfq, if that is another path")
    run.add_argument("--tiles", metavar="PATH", help="the program sfq-tiles; else it is beside this one, or on the path")
    run.add_argument("--progress", action="store_true", help="show progress even if standard error is no terminal")
    found = parser.parse_args(given)
    if not 1 <= found.rows <= plans.MOST_ROWS:
        run.error(f"--rows is 1 to {plans.MOST_ROWS}")
    return found


class Run:
    """One query."""

    def __init__(self, given: argparse.Namespace, room: str) -> None:
        self.given, self.room = given, room
        self.progress = Progress("sfq-scale", is_asked=given.progress)
        self.programs = programs.Programs(programs.find("sfq", given.sfq), programs.find("sfq-tiles", given.tiles), room)
        self.text = self.query_word()

    def query_word(self) -> str:
        """Returns the query's word, standard input copied into a file."""
        if self.given.query != "@-":
            return str(self.given.query)
        path = f"{self.room}/input.sql"
        with open(path, "wb") as file:
            given = standard_input()
            shutil.copyfileobj(given.buffer, file)
        return f"@{path}"

    def query_text(self) -> str:
        if not self.text.startswith("@"):
            return self.text
        with open(self.text[1:], encoding="utf-8", newline="") as file:
            return file.read()

    def header(self, tables: list[Table]) -> bytes:
        """Asks sfq for the header, over tables without rows; its faults end the run, in sfq's order."""
        given, folder = self.programs.without_rows("empty", tables)
        out, err, status = self.programs.run(given, folder, self.text)
        if not status:
            return out.split(b"\n", 1)[0] + b"\n"
        if OF_TEXT.match(err):
            out, err, status = self.programs.run(self.given.schema, self.given.folder, self.text)
            raise Ended(status, err)
        self.check_tables(tables)
        raise Ended(status, err)

    def check_tables(self, tables: list[Table]) -> None:
        """Reads all tables for their faults, and writes the keys of one of them."""
        small = min(tables, key=lambda it: plans.whole_size(self.given.folder, it))
        part = plans.Part("one", small, small.only([]))
        self.programs.split(self.given.schema, self.given.folder, f"{self.room}/checked", plans.MOST_ROWS, [part.word])

    def run(self) -> None:
        """Runs the query, and writes its answer."""
        tables = self.programs.tables(self.given.schema)
        if not tables:
            out, err, status = self.programs.run(self.given.schema, self.given.folder, self.text)
            raise Ended(status, err)
        header = self.header(tables)
        try:
            select = query.read(self.query_text(), tables)
        except query.Unsure as error:
            raise ended(QUERY, f"the query can't be read for sure: {error}") from error
        if select.explains:
            raise ended(QUERY, "EXPLAIN is of one run of sfq: the parts of a query have plans of their own")
        way = plans.choose(select)
        keys = 0 if select.counts else len(select.sources)
        part_header = way.check(self.programs, header, keys)
        taking: Taking = merging.Rows(self.room, part_header, header, keys, select.limit)
        if select.counts:
            taking = merging.Count(header, select.limit)
        connected = cluster.Cluster(self.given.scheduler, self.given.wait)
        try:
            way = self.take_parts(connected, way, taking, select.limit)
        finally:
            connected.close()
        self.progress.clear()
        # Rows make no cycles: looking for some would take a third of the time.
        gc.disable()
        try:
            taking.write(sys.stdout.buffer)
            sys.stdout.flush()
        except Unwritten as error:
            raise Ended(FILES, b"sfq: write failed\n") from error
        if self.given.explain:
            self.explain(way)

    def take_parts(self, connected: cluster.Cluster, way: plans.Way, taking: Taking, limit: Optional[int]) -> plans.Way:
        """Splits the tables, has the parts run, and takes their answers. Returns the way that was taken."""
        given, wanted = self.given, programs.sum_of(self.programs.sfq)
        program = given.worker_sfq or self.programs.sfq
        if not given.send:
            connected.check(program, wanted, self.room)
        self.progress.show("splitting the tables", True)
        way, jobs = way.jobs(self.programs, given.schema, given.folder, given.rows, given.most_pairs)
        if limit == 0:
            jobs = []
        answers = f"{self.room}/answers"
        os.mkdir(answers)
        if given.send:
            program = connected.share(read(self.programs.sfq))

        def call(job: plans.Job) -> tuple[Any, ...]:
            found = [(name, read(path)) for name, path in job.tables] if given.send else job.tables
            return program, wanted, job.schema, job.query, found, None if given.send else answers

        self.took: list[tuple[float, float]] = []
        for job, (output, seconds, own) in connected.outcomes(jobs, call):
            self.took.append((seconds, own))
            taking.add(self.kept(output, len(self.took)))
            self.progress.show(f"{len(self.took):,} of {number_of(len(jobs), 'part')} done", len(self.took) == len(jobs))
        return way

    def kept(self, output: Union[bytes, tuple[str, int]], number: int) -> str:
        """Returns the path of an output, which is written where it was sent."""
        if isinstance(output, tuple):
            path, size = output
            if os.path.getsize(path) != size:
                raise ended(CLUSTER, f"an answer of a part isn't whole here: {path}")
            return path
        path = f"{self.room}/answers/{number}.csv"
        with open(path, "wb") as file:
            file.write(output)
        return path

    def explain(self, way: plans.Way) -> None:
        """Says how the query was split, and the seconds of processor that each part took."""
        own = resource.getrusage(resource.RUSAGE_SELF)
        sfq, workers = (sum(it[at] for it in self.took) for at in (0, 1))
        lines = [f"by {way.kind}{f' of {way.said}' if way.said else ''}", f"query {way.text}", f"runs {len(self.took)}"]
        lines += [f"rows {part.whole.name} {way.counts[part.name]}" for part in way.parts]
        lines += [f"seconds splitting {self.programs.seconds:.3f}", f"seconds sfq {sfq:.3f} longest {max([it[0] for it in self.took], default=0):.3f}"]
        lines += [f"seconds workers {workers:.3f}", f"seconds client {own.ru_utime + own.ru_stime:.3f}"]
        for it in lines:
            print(f"sfq-scale: {it}", file=sys.stderr)


def read(path: str) -> bytes:
    with open(path, "rb") as file:
        return file.read()


def answer(given: argparse.Namespace) -> int:
    """Runs a query in a folder of its own, and returns the status."""
    try:
        base = given.room or tempfile.gettempdir()
        with held():
            room = tempfile.mkdtemp(prefix="sfq-scale-", dir=base)
    except OSError as error:
        say(NAME, f"no folder can be made in {base}: {error.strerror}")
        return FILES
    running = None
    try:
        os.chmod(room, 0o755)
        running = Run(given, os.path.abspath(room))
        running.run()
        return 0
    except Ended as error:
        if running:
            running.progress.clear()
        sys.stderr.buffer.write(error.text)
        sys.stderr.flush()
        return error.status
    finally:
        with held():
            shutil.rmtree(room, ignore_errors=True)


def main(given: Optional[list[str]] = None) -> NoReturn:
    try:
        status = endings.ended(NAME, lambda: answer(read_words(given)))
    except SystemExit as it:
        status = int(it.code or 0)
    # No thread of Dask's is waited for.
    os._exit(status)
