"""Runs parts of the tests side by side, and says how far they are."""
import os
import subprocess
import tempfile
import threading
import time
from concurrent.futures import FIRST_COMPLETED, Future, ThreadPoolExecutor, wait
from typing import IO, Callable, NamedTuple, Optional, Sequence, Union

import proving
import repository

# At most so many seconds pass without a line.
PACE = 20.0
# The commands that run now.
CHILDREN: set["subprocess.Popen[str]"] = set()


class Failure(NamedTuple):
    """A test that failed, its report, and the command that runs its part alone."""

    name: str
    text: str
    command: str


class Skipped(NamedTuple):
    """A test that wasn't run, and what it wants."""

    name: str
    reason: str


class Report(NamedTuple):
    """What came of a part."""

    passed: int = 0
    failures: Sequence[Failure] = ()
    skipped: Sequence[Skipped] = ()


class Part(NamedTuple):
    """A part of the tests: its name, what runs it, and the names of the parts that have to end before."""

    name: str
    run: Callable[[], Report]
    after: tuple[str, ...] = ()


def by_reason(skipped: Sequence[Skipped]) -> dict[str, int]:
    """Returns how many tests each reason has."""
    found: dict[str, int] = {}
    for it in skipped:
        found[it.reason] = found.get(it.reason, 0) + 1
    return found


def tests(number: int) -> str:
    return f"{number} test{'' if number == 1 else 's'}"


class Counts:
    """What passed, failed and was skipped so far."""

    def __init__(self) -> None:
        self.passed = 0
        self.failures: list[Failure] = []
        self.skipped: list[Skipped] = []

    def take(self, name: str, report: Report, seconds: float, head: str = "") -> None:
        """Counts what came of a part, and prints its line, below the reports of what failed in it."""
        for it in report.failures:
            print(f"{it.text.rstrip() or '(it printed nothing)'}\nFAILED: {it.name}", flush=True)
        self.passed += report.passed
        self.failures += report.failures
        self.skipped += report.skipped
        if report.passed or report.failures:
            failed = f", {len(report.failures)} failed" if report.failures else ""
            word = "FAILED" if report.failures else "ok"
            print(f"{head}{word}: {name}, {report.passed} passed{failed} ({proving.span(seconds)})", flush=True)
        for reason, number in by_reason(report.skipped).items():
            print(f"{head}skipped: {name}, {tests(number)}: {reason}", flush=True)

    def close(self) -> int:
        """Prints the reports of what failed once more, what skipped tests want, and the last line. Returns the status."""
        for it in self.failures:
            print(f"\nFAILED: {it.name}\n{it.text.rstrip()}\nalone: {it.command}")
        if self.failures:
            print(f"\nfailed: {', '.join(it.name for it in self.failures)}")
        for reason, number in sorted(by_reason(self.skipped).items()):
            print(f"{reason}: {tests(number)} skipped")
        print(f"{self.passed} passed, {len(self.failures)} failed, {len(self.skipped)} skipped", flush=True)
        return 1 if self.failures else 0


def run(
    words: Sequence[str], folder: str = repository.ROOT, given: Union[int, IO[bytes]] = subprocess.DEVNULL, most: Optional[float] = None,
) -> tuple[int, str, str]:
    """Runs a command, and returns its status and its two streams. Where it is interrupted, ends the command with what that started.

    A command that takes more than `most` seconds is ended too. By its traceback it says where it was.
    """
    pipe = subprocess.PIPE
    with subprocess.Popen(
        words, cwd=folder, stdin=given, stdout=pipe, stderr=pipe, text=True, errors="replace", start_new_session=True
    ) as child:
        CHILDREN.add(child)
        try:
            out, err = child.communicate(timeout=most)
        except subprocess.TimeoutExpired:
            proving.end_groups([child], lambda it: it.poll() is not None)
            out, err = rest_of(child)
            err += f"It was ended after {proving.span(most or 0)}.\n"
        except BaseException:
            proving.end_groups([child], lambda it: it.poll() is not None)
            raise
        finally:
            CHILDREN.discard(child)
    return child.returncode, out, err


def rest_of(child: "subprocess.Popen[str]") -> tuple[str, str]:
    """Returns the streams of a command that was ended: nothing where something that it started still has them."""
    try:
        return child.communicate(timeout=10)
    except subprocess.TimeoutExpired:
        return "", ""


def end_all() -> None:
    """Ends the commands that run still, each with what it started."""
    proving.end_groups(CHILDREN, lambda it: it.poll() is not None)


class Board:
    """A run of parts: what has ended, what runs, and what waits."""

    def __init__(self, counts: Counts, parts: Sequence[Part], workers: int) -> None:
        self.counts, self.waiting, self.workers = counts, list(parts), workers
        self.names = {it.name for it in parts}
        self.ended: set[str] = set()
        self.running: dict["Future[Report]", tuple[Part, float]] = {}
        self.begun = self.said = time.monotonic()

    def head(self) -> str:
        return f"[{len(self.ended)} of {len(self.names)}, {proving.span(time.monotonic() - self.begun)}] "

    def run(self) -> None:
        """Runs all parts. Where they are interrupted, ends what they started."""
        with ThreadPoolExecutor(self.workers) as pool:
            try:
                while self.waiting or self.running:
                    self.start(pool)
                    done, _ = wait(self.running, max(0.1, self.said + PACE - time.monotonic()), FIRST_COMPLETED)
                    for it in done:
                        self.take(it)
                    if not done:
                        self.say_running()
            except BaseException:
                self.waiting.clear()
                end_all()
                raise

    def start(self, pool: ThreadPoolExecutor) -> None:
        """Starts the parts for which there are workers, in their order."""
        for it in [it for it in self.waiting if not self.names & set(it.after) - self.ended]:
            if len(self.running) == self.workers:
                return
            self.waiting.remove(it)
            self.running[pool.submit(it.run)] = it, time.monotonic()

    def take(self, future: "Future[Report]") -> None:
        part, begun = self.running.pop(future)
        self.ended.add(part.name)
        self.counts.take(part.name, future.result(), time.monotonic() - begun, self.head())
        self.said = time.monotonic()

    def say_running(self) -> None:
        now = time.monotonic()
        texts = [f"{part.name} ({proving.span(now - begun)})" for part, begun in self.running.values()]
        print(f"{self.head()}running: {', '.join(texts)}", flush=True)
        self.said = now


def side_by_side(counts: Counts, parts: Sequence[Part], workers: Optional[int] = None) -> None:
    """Runs parts, as many at a time as there are processors."""
    Board(counts, parts, workers or proving.processors()).run()


class Beat:
    """Prints a line each 20 seconds as long as something runs that prints none itself."""

    def __init__(self, what: str) -> None:
        self.what, self.over = what, threading.Event()
        self.begun = self.said = time.monotonic()

    def __enter__(self) -> "Beat":
        self.thread = threading.Thread(target=self.watch, daemon=True)
        self.thread.start()
        return self

    def note(self) -> None:
        """Notes that a line was printed."""
        self.said = time.monotonic()

    def watch(self) -> None:
        while not self.over.wait(1):
            if time.monotonic() - self.said >= PACE:
                print(f"running: {self.what} ({proving.span(time.monotonic() - self.begun)})", flush=True)
                self.note()

    def __exit__(self, *_: object) -> None:
        self.over.set()
        self.thread.join()


def read(path: str) -> str:
    """Returns the text of a file, or nothing where there is none."""
    if not os.path.isfile(path):
        return ""
    with open(path, encoding="utf-8", errors="replace") as file:
        return file.read()


def room() -> "tempfile.TemporaryDirectory[str]":
    """Returns a folder that is removed at the end."""
    return tempfile.TemporaryDirectory(prefix="sfq-tests-")
