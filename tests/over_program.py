"""Runs a command of bindings/python over a program in place of the libraries: `python over_program.py PROGRAM COMMAND ..`.

The program is a stand-in of a test, or sfq itself: `PROGRAM pairs` and `PROGRAM why` check texts in place of libsfq, and `PROGRAM run`
answers queries in place of libsfq_tables. So what a command does around the libraries is tested where nothing is proved.
"""
import csv
import importlib
import io
import itertools
import os
import runpy
import select
import subprocess
import sys
import tempfile

ROOT = os.path.dirname(os.path.dirname(os.path.realpath(__file__)))
FOLDER = f"{ROOT}/bindings/python"
runpy.run_path(f"{ROOT}/tools/paths.py")

from sfq.commands import asking, checking
from sfq.commands.progress import Progress
from sfq.geometry.faults import LibraryError
from sfq.layers import meeting
from sfq.tables import statements


class Run:
    """A run of the program over a query, whose output comes as it writes it."""

    def __init__(self, program, places, query):
        self.query, self.said = asking.query_file(query), tempfile.TemporaryFile()
        words = [program, "run", "--why", "--", *places, f"@/dev/fd/{self.query.fileno()}"]
        self.process = subprocess.Popen(words, stdin=subprocess.DEVNULL, stdout=subprocess.PIPE, stderr=self.said, pass_fds=[self.query.fileno()])
        self.out = io.TextIOWrapper(self.process.stdout, encoding="utf-8", newline="")

    def records(self, is_plan):
        """Returns the records that it writes, the header first; of a plan the lines."""
        yield from ([line.rstrip("\n")] for line in self.out) if is_plan else csv.reader(self.out)

    def end(self):
        """Waits for the end. Refused where the status isn't 0."""
        status = self.process.wait()
        self.said.seek(0)
        text = self.said.read().decode("utf-8", "replace")
        if status:
            raise asking.Refused(text, status if status > 0 else 128 - status)
        return text

    def stop(self):
        """Ends it if it still runs."""
        if self.process.poll() is None:
            self.process.kill()
            self.process.wait()
        self.out.close()
        self.said.close()
        self.query.close()


class Asker:
    """Asks by runs of the program, as `asking.Asker` does by the library."""

    PROGRAM = ""

    def __init__(self, name, places, schema):
        self.name, self.places, self.tables = name, places, statements.tables(schema)

    def ask(self, query):
        """Asks a query. Refused where it has no answer."""
        run, is_plan, progress = Run(self.PROGRAM, self.places, query), statements.is_plan(query), Progress(self.name, wait=0.5)
        try:
            while not select.select([run.process.stdout], [], [], 0.1)[0]:
                progress.show("the program runs")
            progress.clear()
            records = run.records(is_plan)
            first = next(records, None)
            if first is None:
                raise asking.Refused(run.end() or "sfq: the program wrote nothing\n", 1)
            headers = ["plan"] if is_plan else first
            types = statements.types(headers, query, self.tables)
        except BaseException:
            run.stop()
            raise
        rows = self.rows(run, itertools.chain([first], records) if is_plan else records)
        return asking.Answer(headers, types, rows, is_plan)

    @staticmethod
    def rows(run, records):
        try:
            yield from records
            run.end()
        finally:
            run.stop()

    def why(self, _query, fault):
        """Returns what the last fault means."""
        return fault.text + (asking.page(fault.code) if fault.code else "")


class Checker:
    """Checks by runs of the program, as `checking.Checker` does by the library."""

    PROGRAM, TREE = "", meeting.Tree

    def given(self, text, *words):
        """Runs the program over a text. MemoryError where it is out of memory, LibraryError where it fails otherwise."""
        ran = subprocess.run([self.PROGRAM, *words], input=text, capture_output=True, text=True, start_new_session=True)
        if ran.returncode == 7:
            raise MemoryError("sfq: out of memory")
        if ran.returncode not in (0, 5):
            raise LibraryError(f"sfq: {self.PROGRAM} {words[0]} ended with status {ran.returncode}: {ran.stderr.strip()}")
        return ran

    def reasons(self, texts):
        lines = self.given("".join(f'"{it}",POINT EMPTY\n' for it in texts), "pairs", "-").stdout.splitlines()
        return [self.reason(text) if line.startswith("first ") else None for text, line in zip(texts, lines)]

    def matrices(self, pairs):
        return self.given("".join(f'"{one.text}","{other.text}"\n' for one, other in pairs), "pairs", "-").stdout.split()

    def reason(self, text):
        ran = self.given(text, "why", "@-")
        return (ran.stdout or ran.stderr.rpartition("sfq: first ")[2]).strip()


def use(program):
    """Has the commands of this process use a program in place of the libraries."""
    Asker.PROGRAM = Checker.PROGRAM = program
    asking.Asker, checking.Checker = Asker, Checker


if __name__ == "__main__":
    use(os.path.abspath(sys.argv[1]))
    command = sys.argv[2]
    sys.argv[:3] = [f"{FOLDER}/bin/{command}"]
    commands = runpy.run_path(f"{FOLDER}/__main__.py")["COMMANDS"]
    sys.exit(importlib.import_module(commands[command]).main())
