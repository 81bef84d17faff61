"""Asks sfq and other engines for the answers to many pairs, whatever an engine does: it may hang, crash, or answer too little."""
from __future__ import annotations

import os
import select
import shlex
import shutil
import signal
import subprocess
import sys
import tempfile
import time
from typing import IO, Any, NamedTuple, Optional, Sequence, Union

from sfq.commands.endings import Stopped
from sfq.geometry.counts import number_of

from . import proved
from .engines import AT_ONCE, ENGINES, JTS, JTS_NG, Lacking, Two, jts_words, listed

# The status where sfq or an engine isn't there, or fails.
LACKING = 8
# What an engine may do in place of an answer.
HANGS, CRASHES, FEWER, MORE = "hangs", "crashes", "answers too few lines", "answers too many lines"
# How many pairs that end an engine are looked for one by one; after these no more pairs are asked of it.
MOST_FAILURES = 50
# How long an engine may take for each pair, on top of its patience, in seconds, and for its start.
EACH, START = 0.01, 60.0
# How many bytes are written or read at once.
PIECE = 1 << 16


class Failure(NamedTuple):
    """What an engine did in place of an answer."""

    kind: str


class Exchange(NamedTuple):
    """What came of a batch: the lines, and how it ended where it isn't as it should be."""

    lines: list[str]
    ended: str


def exchange(process: subprocess.Popen[bytes], data: bytes, wanted: Optional[int], seconds: float) -> Exchange:
    """Writes to a process and reads what it writes, up to the wanted number of lines, or to its end where none is given.

    It hangs where it writes nothing for so many seconds.
    """
    assert process.stdin and process.stdout
    given, taken, is_over = process.stdin, process.stdout, False
    os.set_blocking(given.fileno(), False)
    parts: list[bytes] = []
    at, count, due = 0, 0, time.monotonic() + seconds
    is_open = True
    while wanted is None or count < wanted:
        if at == len(data) and is_open and wanted is None:
            given.close()
            is_open = False
        ready = select.select([taken], [given] if at < len(data) else [], [], max(due - time.monotonic(), 0))
        if not ready[0] and not ready[1]:
            return Exchange(lines_of(parts), HANGS)
        if ready[1]:
            try:
                at += os.write(given.fileno(), data[at : at + PIECE])
                due = max(due, time.monotonic() + seconds)
            except BrokenPipeError:
                at = len(data)
        if ready[0]:
            part = os.read(taken.fileno(), PIECE)
            if not part:
                is_over = True
                break
            parts.append(part)
            count += part.count(b"\n")
            due = time.monotonic() + seconds
    found = lines_of(parts)
    if not is_over:
        return Exchange(found, "")
    try:
        status = process.wait(seconds)
    except subprocess.TimeoutExpired:
        return Exchange(found, HANGS)
    return Exchange(found, CRASHES if status else "")


def lines_of(parts: list[bytes]) -> list[str]:
    """Returns the lines that are whole."""
    return b"".join(parts).decode("utf-8", "replace").split("\n")[:-1]


def environment() -> dict[str, str]:
    """Returns the environment in which another Python finds the packages of this command."""
    top = os.path.dirname(os.path.dirname(os.path.abspath(__file__)))
    return {**os.environ, "PYTHONPATH": os.pathsep.join(it for it in (top, os.environ.get("PYTHONPATH", "")) if it)}


def of_pairs(pairs: Sequence[Two]) -> bytes:
    return "".join([f"{first}\t{second}\n" for first, second in pairs]).encode()


def kill(process: subprocess.Popen[bytes]) -> None:
    """Ends a process and those that it started."""
    if process.poll() is None:
        os.killpg(process.pid, signal.SIGKILL)


class Engine:
    """An engine that runs: what it was called on the command line, and its process."""

    def __init__(self, spelled: str, ask: str, patience: float = 5.0) -> None:
        """ValueError where no engine is called like this, Lacking where something that it needs isn't installed."""
        self.name, _, self.of = spelled.partition(":")
        known = ENGINES.get(self.name)
        if not known or bool(known.takes) != bool(self.of):
            raise ValueError(f"there is no engine {spelled}: there are {listed()}")
        # What a server is called may have a password.
        self.spelled, self.patience = (self.name if self.name == "postgis" else spelled), patience
        self.ask = ask if ask in known.asks else known.asks[0]
        # A program writes its answers when it likes, perhaps at the end of its input alone. The others stay for the next batch.
        self.is_kept = self.name != "command"
        # Whether it writes each answer at once. It costs more, so that only an engine that once broke off does, where its kind can:
        # what it wrote last says at which pair it breaks off.
        self.is_by_line, self.is_at_once = known.is_by_line, False
        self.process: Optional[subprocess.Popen[bytes]] = None
        self.failures, self.note = 0, ""
        self.words = self.words_of()
        self.version = self.asked_version()

    def words_of(self) -> list[str]:
        if self.name == "command":
            return shlex.split(self.of)
        if self.name in (JTS, JTS_NG):
            return [*jts_words(self.name), self.ask]
        return [sys.executable, "-B", "-m", f"{__package__}.engines", self.name, self.of, self.ask]

    def asked_version(self) -> str:
        """Returns what the engine says it is. Lacking where it isn't there."""
        if self.name == "command":
            if not self.words or not shutil.which(self.words[0]):
                raise Lacking(f"there is no program {self.of}")
            return self.of
        text = ""
        try:
            text = "".join(self.start().lines[:1])
        finally:
            if not text or text.startswith("!"):
                self.stop()
        if not self.process:
            raise Lacking(text.removeprefix("! ") or f"{self.name} can't be started")
        return text

    def start(self) -> Exchange:
        """Starts the process. Where it stays it says first what it is."""
        words = [*self.words, AT_ONCE] if self.is_at_once else self.words
        # A group of its own: Ctrl-C reaches this command alone, which ends the engine when it has kept what was found.
        self.process = subprocess.Popen(words, stdin=subprocess.PIPE, stdout=subprocess.PIPE, stderr=subprocess.DEVNULL,
                                        env=environment(), start_new_session=True)
        return self.taken(b"", 1, START) if self.is_kept else Exchange([], "")

    def taken(self, data: bytes, wanted: Optional[int], seconds: float) -> Exchange:
        assert self.process
        return exchange(self.process, data, wanted, seconds)

    def stop(self) -> None:
        """Ends the process."""
        process, self.process = self.process, None
        if not process:
            return
        assert process.stdin and process.stdout
        try:
            process.stdin.close()
        except OSError:
            pass
        try:
            process.wait(1.0)
        except subprocess.TimeoutExpired:
            pass
        finally:
            kill(process)
            process.wait()
            process.stdout.close()

    def batch(self, pairs: Sequence[Two]) -> Exchange:
        """Asks once, and returns what came."""
        seconds = self.patience + (0 if self.is_at_once else EACH * len(pairs))
        if not self.process or not self.is_kept:
            self.stop()
            begun = self.start()
            if self.is_kept and not begun.lines:
                self.stop()
                return Exchange([], CRASHES)
        data = of_pairs(pairs)
        found = self.taken(data + b"\n", len(pairs), seconds) if self.is_kept else self.taken(data, None, seconds)
        if found.ended or not self.is_kept or len(found.lines) != len(pairs):
            if found.ended == HANGS and self.process:
                kill(self.process)
            self.stop()
        return found

    def answers(self, pairs: Sequence[Two]) -> list[Any]:
        """Returns the answer to each pair, a text or a Failure: fewer where the engine is given up on the way."""
        found: list[Any] = []
        while len(found) < len(pairs) and not self.note:
            rest = pairs[len(found) :]
            came = self.batch(rest)
            if len(came.lines) == len(rest) and came.ended != HANGS:
                return found + came.lines
            if came.ended and len(came.lines) < len(rest):
                # What came before the end is of the pairs before; the next one may be to blame.
                found += came.lines
                rest = pairs[len(found) :]
            if came.ended and self.is_by_line and not self.is_at_once:
                self.is_at_once = True
            elif len(rest) == 1 or (came.ended and self.is_by_line):
                found.append(self.failure(came, len(rest)))
            else:
                found += self.answers(rest[: len(rest) // 2])
        return found

    def failure(self, came: Exchange, wanted: int) -> Failure:
        """Counts a pair that has no answer; after too many the engine is given up."""
        self.failures += 1
        if self.failures == MOST_FAILURES:
            self.note = f"it failed at {MOST_FAILURES} pairs, and is asked no more"
        return Failure(came.ended or (FEWER if len(came.lines) < wanted else MORE))


# ---- sfq ----


class Sfq:
    """The program sfq, by runs of `sfq pairs` and `sfq why`."""

    def __init__(self, program: str = "") -> None:
        """Stopped where it isn't there, or isn't proved."""
        found = shutil.which(program) if program else proved.beside()
        if not found:
            raise Stopped(f"no program {program}" if program else "no program sfq is beside this command or on the path; --sfq names one", LACKING)
        self.program = os.path.abspath(found)
        reason = proved.unproved(self.program)
        if reason:
            raise Stopped(reason, LACKING)

    def run(self, *words: str, given: Union[int, IO[Any]] = subprocess.DEVNULL) -> subprocess.CompletedProcess[str]:
        """Runs the program to its end. MemoryError where it is out of memory, Stopped where it fails otherwise."""
        # A group of its own: Ctrl-C reaches the command alone, which ends the program.
        ran = subprocess.run([self.program, *words], stdin=given, stdout=subprocess.PIPE, stderr=subprocess.PIPE, text=True, start_new_session=True)
        if ran.returncode == 7:
            raise MemoryError("sfq: out of memory")
        if ran.returncode not in (0, 5):
            said = ran.stderr.strip().splitlines()[-1:]
            raise Stopped(": ".join([f"{self.program} {words[0]} ended with status {ran.returncode}", *said]), LACKING)
        return ran

    def lines(self, pairs: Sequence[Two]) -> list[str]:
        """Returns the matrix of each pair, of one that is refused the reason, such as `first V3 0`. Stopped where sfq fails."""
        with tempfile.TemporaryFile() as file:
            file.write(records(pairs).encode())
            file.seek(0)
            found = self.run("pairs", "-", given=file).stdout.splitlines()
        if len(found) != len(pairs):
            raise Stopped(f"sfq pairs printed {number_of(len(found), 'line')} for {number_of(len(pairs), 'pair')}", LACKING)
        return found

    def faults(self, texts: Sequence[str]) -> list[str]:
        """Returns the code of the fault of each text, nothing of one that is valid."""
        return [line.split()[1] if line.startswith("first ") else "" for line in self.lines([(it, "POINT EMPTY") for it in texts])]

    def why(self, *texts: str) -> list[str]:
        """Returns the lines of `sfq why`: of each cell, or why a geometry isn't valid. Stopped where sfq fails."""
        return self.run("why", "--", *texts).stdout.splitlines()


def records(pairs: Sequence[Two]) -> str:
    """Returns the text of a CSV file of pairs."""
    found = "".join([f'"{first}","{second}"\n' for first, second in pairs])
    if found.count('"') == 4 * len(pairs):
        return found
    # Only a text that sfq refuses has a quote.
    return "".join(['"{}","{}"\n'.format(*(it.replace('"', '""') for it in pair)) for pair in pairs])
