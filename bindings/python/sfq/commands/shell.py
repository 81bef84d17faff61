"""The command sfq-shell: a prompt for queries.

    sfq-shell SCHEMA DIR

A query ends with `;`, and a line that begins with a point is a command: `.help` lists them. Through a pipe there is no prompt, and what
is written is what `sfq run` writes. None of it is proved; the answers are.
"""
from __future__ import annotations

import argparse
import csv
import functools
import io
import os
import re
import shlex
import sys
import time
from typing import Iterable, Iterator, NamedTuple, Optional

from .. import __version__
from ..geometry.faults import LibraryError
from ..tables import near_names, statements
from . import asking, endings, exports, left_out, outputs, prompt, showing, streams
from .asking import Refused
from .endings import DONE, MISSING, USAGE, Stopped

NAME = "sfq-shell"
# How deep files may name each other by .read.
DEEPEST = 16
# What is said at the beginning of a prompt.
GREETING = f"{NAME}: a query ends with ; and .help lists what else there is"
# Those whose words are names and texts, which may span lines in quotes.
SPANNING = (".output", ".read", ".why")
# What is up to the next quote that counts, where none is open, and where one is.
UP_TO_QUOTE = {
    "": re.compile(r"""(?:\\.|[^'"\\])*(['"])""", re.S), "'": re.compile("[^']*(')"), '"': re.compile(r'(?:\\.|[^"\\])*(")', re.S),
}
# What people type to end, or for help, in place of a command.
WORDS = {"quit": ".quit", "exit": ".quit", "help": ".help"}

say = functools.partial(endings.say, NAME)


class Left(Exception):
    """The user wants to go."""


class Command(NamedTuple):
    """A command: its name, what it takes, and what it does."""

    name: str
    takes: str
    does: str


COMMANDS = (
    Command(".help", "", "lists these commands"),
    Command(".tables", "", "lists the tables"),
    Command(".schema", "[TABLE]", "prints the schema, or the part of a table"),
    Command(".load", "[TABLE ..]", "loads tables now, or all, and prints how many rows each has"),
    Command(".plan", "[QUERY]", "prints the plan of a query, or of the last one (EXPLAIN)"),
    Command(".work", "[QUERY]", "the same, and how many predicates it decides (EXPLAIN ANALYZE)"),
    Command(".why", "[CODE | A [B]]", "explains the last fault, a code, why geometry A isn't valid, or where A and B meet"),
    Command(".mode", "[MODE]", "writes answers as csv, table, json or geojson from now on"),
    Command(".output", "[FILE]", "writes them into a file, or to standard output again"),
    Command(".read", "FILE", "does what is in a file"),
    Command(".timer", "on | off", "says how long each query takes"),
    Command(".quit", "", "ends, as Ctrl-D does"),
)


class Shell:
    """What a session knows: who is asked, how answers are written, and what came last."""

    def __init__(self, asker: asking.Asker, schema: str, folder: str, mode: str) -> None:
        self.asker, self.schema, self.folder, self.mode = asker, schema, folder, mode
        self.tables, self.is_timed, self.depth = asker.tables, False, 0
        self.out, self.output = sys.stdout, outputs.Output("")
        self.last, self.fault = "", Refused("", DONE)

    # ---- what is asked ----

    def ask(self, query: str) -> None:
        """Asks a query and writes its answer. Refused where there is none."""
        begun, self.last = time.monotonic(), query
        try:
            self.write(self.asker.ask(query))
        except Refused as error:
            self.fault = error
            raise
        finally:
            if self.is_timed:
                say(f"{time.monotonic() - begun:.3f} s")

    def write(self, answer: asking.Answer) -> None:
        """Writes an answer."""
        width = None
        if self.out is sys.stdout and self.out.isatty():
            width = os.get_terminal_size(self.out.fileno()).columns or None
        try:
            showing.show(answer, self.mode, showing.Place(self.out, width, self.folder))
        finally:
            answer.close()

    def print(self, text: str) -> None:
        """Writes a text where answers are written."""
        self.out.write(text)
        self.out.flush()

    def run(self, lines: Iterable[str], source: str) -> None:
        """Does what lines say, up to the first fault. At the end of the last one a query needs no `;`."""
        splitter = statements.Splitter()
        statement, rest = None, iter(lines)
        try:
            for line in rest:
                if not splitter.is_begun and line.lstrip().startswith("."):
                    statement = statements.Statement(whole(line, rest), splitter.line + 1)
                    splitter.line += statement.text.count("\n")
                    self.do(statement.text)
                    continue
                for statement in splitter.add(line):
                    self.ask(statement.text)
            statement = splitter.taken()
            if statement:
                self.ask(statement.text)
        except Refused as error:
            if source and statement and not error.is_placed:
                error.text += f"{NAME}: {source} line {statement.line}: here the query begins\n"
                error.is_placed = True
            raise
        except Stopped as error:
            if source and statement:
                raise Stopped(f"{source} line {statement.line}: {error}", error.status) from None
            raise

    # ---- commands ----

    def do(self, line: str) -> None:
        """Does a command. Stopped where it isn't one, or is misused."""
        name, _, rest = line.strip().partition(" ")
        if name not in (it.name for it in COMMANDS):
            raise Stopped(f"there is no {name}: .help lists the commands", USAGE)
        getattr(self, "do_" + name[1:])(rest.strip())

    def words(self, name: str, rest: str, most: int) -> list[str]:
        """Returns the words behind a command. Stopped where there are more than it takes."""
        try:
            found = shlex.split(rest)
        except ValueError as error:
            raise Stopped(f"{name}: {error}", USAGE) from None
        if "\0" in rest:
            raise Stopped(f"{name}: no file, table or geometry has a NUL in its name or text", USAGE)
        if len(found) > most:
            raise Stopped(f"{name} {takes(name)}: {len(found)} words are too many; write one with blanks in quotes", USAGE)
        return found

    def named(self, name: str) -> statements.Table:
        """Returns the table of a name. Stopped where there is none."""
        for it in self.tables:
            if it.name.lower() == name.lower():
                return it
        raise Stopped(near_names.said(f"there is no table {name}", name, [it.name for it in self.tables]), USAGE)

    def do_help(self, _rest: str) -> None:
        width = max(len(f"{it.name} {it.takes}") for it in COMMANDS)
        self.print("".join(f"{it.name} {it.takes}".ljust(width) + f"  {it.does}\n" for it in COMMANDS)
                   + "A query ends with ; and may span lines. Ctrl-C ends it, and leaves the prompt.\n")

    def do_quit(self, _rest: str) -> None:
        raise Left

    def do_tables(self, _rest: str) -> None:
        self.print("".join(f"{it.name}\n" for it in self.tables))

    def do_schema(self, rest: str) -> None:
        found = self.words(".schema", rest, 1)
        self.print(self.named(found[0]).text if found else self.schema.rstrip("\n") + "\n")

    def do_load(self, rest: str) -> None:
        for it in [self.named(word) for word in self.words(".load", rest, len(self.tables))] or self.tables:
            self.print(f"{it.name} {self.loaded(it)}\n")

    def loaded(self, table: statements.Table) -> str:
        """Loads a table, and returns how many rows it has."""
        try:
            return next(self.asker.ask(f"SELECT COUNT(*) FROM {table.name}").rows)[0]
        except Refused as error:
            self.fault = error
            raise

    def do_plan(self, rest: str) -> None:
        self.explain("EXPLAIN", rest)

    def do_work(self, rest: str) -> None:
        self.explain("EXPLAIN ANALYZE", rest)

    def explain(self, how: str, rest: str) -> None:
        """Asks for the plan of a query, or of the last one, which stays the last one."""
        splitter = statements.Splitter()
        found = next(splitter.add(rest + "\n"), None) or splitter.taken()
        query = found.text if found else self.last
        if not query:
            raise Stopped("no query came before: write one behind the command", USAGE)
        try:
            self.ask(query if statements.is_plan(query) else f"{how} {query}")
        finally:
            self.last = query

    def do_why(self, rest: str) -> None:
        found = self.words(".why", rest, 2)
        if found and (len(found) == 2 or not re.fullmatch(r"[A-Za-z]\d+", found[0])):
            self.print(self.with_places(asking.reasons(found)))
        elif found:
            self.print(asking.page(found[0]))
        elif self.fault.text:
            self.print(self.asker.why(self.last, self.fault))
        else:
            raise Stopped("no fault came before: name one, as .why V3 does, or give one or two geometries, each in quotes", USAGE)

    def with_places(self, reasons: str) -> str:
        """Returns why a geometry isn't valid, or where two meet, with the places in the source too, where sfq-import made the tables."""
        if not os.path.isfile(os.path.join(self.folder, "grid.json")):
            return reasons
        grid = exports.known(self.folder).grid
        return "".join(f"{left_out.with_places(it, grid)}\n" for it in reasons.splitlines())

    def do_mode(self, rest: str) -> None:
        found = self.words(".mode", rest, 1)
        if not found:
            self.print(f"{self.mode}\n")
        elif found[0] not in showing.MODES:
            raise Stopped(near_names.said(f"there is no mode {found[0]}", found[0], list(showing.MODES)), USAGE)
        else:
            self.mode = found[0]

    def do_output(self, rest: str) -> None:
        found = self.words(".output", rest, 1)
        output = outputs.Output(found[0] if found else "")
        try:
            self.keep()
        except OSError:
            output.drop()
            raise
        self.out, self.output = output.file or sys.stdout, output

    def keep(self) -> None:
        """Has the file of answers, if there is one, take its place. Answers go to standard output then."""
        output, self.out, self.output = self.output, sys.stdout, outputs.Output("")
        try:
            output.keep()
        finally:
            output.drop()

    def close(self) -> None:
        """Removes the file of answers, if there is one that hasn't taken its place."""
        self.output.drop()

    def do_read(self, rest: str) -> None:
        found = self.words(".read", rest, 1)
        if not found:
            raise Stopped(f".read {takes('.read')}: name a file", USAGE)
        if self.depth == DEEPEST:
            raise Stopped(f".read {found[0]}: files name each other more than {DEEPEST} deep", USAGE)
        self.depth += 1
        try:
            with open(found[0], encoding="utf-8", errors="surrogateescape", newline="\n") as file:
                self.run(file, found[0])
        finally:
            self.depth -= 1

    def do_timer(self, rest: str) -> None:
        if rest not in ("on", "off"):
            raise Stopped(f".timer {takes('.timer')}", USAGE)
        self.is_timed = rest == "on"

    # ---- the prompt ----

    def take(self, line: str, splitter: statements.Splitter) -> None:
        """Does what a line at the prompt says, and says what is wrong with it."""
        try:
            if not splitter.is_begun and (line.lstrip().startswith(".") or line.strip().lower() in WORDS):
                self.do(WORDS.get(line.strip().lower(), line))
                return
            for statement in splitter.add(line + "\n"):
                self.ask(statement.text)
        except Refused as error:
            sys.stderr.write(error.text)
        except (Stopped, OSError, MemoryError) as error:
            say(endings.reason(error) or "out of memory")
        except KeyboardInterrupt:
            # Behind the ^C that the terminal shows.
            print(file=sys.stderr)
            say("interrupted")
        sys.stderr.flush()


def whole(line: str, rest: Iterator[str]) -> str:
    """Returns a command: its line, and of the rest those lines into which its quotes go on."""
    lines, quote = [line], ""
    if line.split(maxsplit=1)[0] in SPANNING:
        quote = open_quote(line, "")
        while quote and (more := next(rest, "")):
            lines.append(more)
            quote = open_quote(more, quote)
    return "".join(lines)


def open_quote(line: str, quote: str) -> str:
    """Returns which quote is open behind a line, before which this one is open."""
    at = 0
    while found := UP_TO_QUOTE[quote].match(line, at):
        quote, at = "" if quote else found[1], found.end()
    return quote


def takes(name: str) -> str:
    """Returns what a command takes."""
    return next(it.takes for it in COMMANDS if it.name == name)


def converse(shell: Shell, history: Optional[str]) -> None:
    """Asks for lines at a prompt until the user goes."""
    splitter, session = statements.Splitter(), prompt.Session(shell.tables, [it.name for it in COMMANDS], history)
    print(GREETING)
    try:
        while True:
            try:
                line = session.line(splitter)
            except KeyboardInterrupt:
                print()
                splitter = statements.Splitter()
                continue
            shell.take(line, splitter)
            session.note(line, splitter.is_begun)
    except EOFError:
        print()
    except Left:
        pass
    finally:
        session.close()


def parser() -> argparse.ArgumentParser:
    found = argparse.ArgumentParser(
        prog=NAME, description="Asks for queries at a prompt.",
        epilog="Through a pipe, with -c, and in a file that .read names, the first fault ends it, with the status that sfq run has: 3 the schema, "
        "4 a table, 5 the query, 6 a file or the output, 7 out of memory; else 0 done, 1 the library isn't there, 2 the command line or "
        "a command. At a prompt faults end nothing. The manual: man sfq-shell.")
    add = found.add_argument
    add("schema", metavar="SCHEMA", help="the file of CREATE TABLE statements")
    add("folder", metavar="DIR", help="the directory of the tables: t.csv for table t")
    add("-c", "--command", metavar="QUERY", action="append", default=[], help="run this query or this command, and end; several in turn")
    add("--mode", choices=tuple(showing.MODES), help="how answers are written (table on a terminal, else csv)")
    add("--all", action="store_true", help="load all tables at the start, and not each when it is first named")
    add("--no-history", action="store_true", help="keep no history of what you typed, $XDG_STATE_HOME/sfq/shell-history")
    add("--version", action="version", version=f"{NAME} {__version__}")
    return found


def run(options: argparse.Namespace) -> int:
    """Runs a session, and returns its status."""
    csv.field_size_limit(sys.maxsize)
    for it in (sys.stdout, sys.stderr):
        if isinstance(it, io.TextIOWrapper):
            it.reconfigure(encoding="utf-8", errors="surrogateescape", newline="\n")
    with open(options.schema, encoding="utf-8", errors="surrogateescape", newline="\n") as file:
        schema = file.read()
    asker = asking.Asker(NAME, [options.schema, options.folder], schema)
    shell = Shell(asker, schema, options.folder, options.mode or ("table" if sys.stdout.isatty() else "csv"))
    try:
        if options.all:
            for table in shell.tables:
                shell.loaded(table)
        for text in options.command:
            shell.run(io.StringIO(text, newline="\n"), "")
        if not options.command:
            if sys.stdin.isatty() and sys.stdout.isatty():
                converse(shell, None if options.no_history else prompt.history_file())
            else:
                shell.run(streams.standard_input(), "standard input")
        shell.keep()
    except Left:
        shell.keep()
    finally:
        shell.close()
    return DONE


def run_words(options: argparse.Namespace) -> int:
    """Runs a session, and returns its status: that of the fault that ends it, if one does."""
    try:
        return run(options)
    except Refused as error:
        sys.stdout.flush()
        sys.stderr.write(error.text)
        return error.status
    except LibraryError as error:
        raise Stopped(str(error).removeprefix("sfq: "), MISSING) from None


def main(words: Optional[list[str]] = None) -> int:
    """Runs the command, and returns its status."""
    return endings.ended(NAME, lambda: run_words(parser().parse_args(words)))
