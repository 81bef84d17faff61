"""How a command ends: its statuses, why one ends early, and the line on standard error that says so."""
from __future__ import annotations

import contextlib
import signal
import sys
import threading
from types import FrameType
from typing import Callable, Iterator, Optional

from . import streams

DONE, MISSING, USAGE, DATA, FILES, MEMORY = 0, 1, 2, 4, 6, 7
INTERRUPTED = 130
# What is added to the number of a signal that ends a command.
BY_SIGNAL = 128
# The signals that end a command beside SIGINT, each with what is said of it.
SAID = {signal.SIGTERM: "terminated", signal.SIGHUP: "hung up"}


class Stopped(Exception):
    """Why a command ends early, and with which status."""

    def __init__(self, text: str, status: int) -> None:
        super().__init__(text)
        self.status = status


class Signalled(BaseException):
    """A signal other than SIGINT ends the command."""

    def __init__(self, number: int) -> None:
        super().__init__(number)
        self.number = number


def spelled(part: bytes) -> str:
    """Returns a part of a line, with escapes in place of what a terminal obeys and of what isn't UTF-8."""
    text = part.decode("utf-8", "backslashreplace")
    return "".join(it if it.isprintable() else it.encode("unicode_escape").decode() for it in text)


def say(name: str, text: str) -> None:
    """Prints a line of a command on standard error."""
    print(f"{name}: {spelled(text.encode('utf-8', 'surrogateescape'))}", file=sys.stderr, flush=True)


def reason(error: BaseException) -> str:
    """Returns what an exception says: of a file that can't be opened its path, and the system's reason."""
    if isinstance(error, OSError) and error.strerror:
        return f"{error.filename}: {error.strerror}" if error.filename else error.strerror
    return str(error)


def outcome(error: BaseException) -> tuple[str, int]:
    """Returns what a command says where an exception ends it, and its status."""
    if isinstance(error, Stopped):
        return str(error), error.status
    if isinstance(error, MemoryError):
        return "out of memory", MEMORY
    if isinstance(error, KeyboardInterrupt):
        return "interrupted", INTERRUPTED
    if isinstance(error, Signalled):
        return SAID[signal.Signals(error.number)], BY_SIGNAL + error.number
    return reason(error), FILES


def signalled(number: int, _frame: Optional[FrameType]) -> None:
    """Ends the command by a signal. One that comes meanwhile is too late."""
    for it in SAID:
        signal.signal(it, signal.SIG_IGN)
    raise Signalled(number)


@contextlib.contextmanager
def signals_taken() -> Iterator[None]:
    """Has SIGTERM and SIGHUP raise Signalled meanwhile, so that the command removes its files. One that is ignored stays so, as under nohup."""
    is_main = threading.current_thread() is threading.main_thread()
    before = {it: signal.signal(it, signalled) for it in SAID if is_main and signal.getsignal(it) is signal.SIG_DFL}
    try:
        yield
    finally:
        for it, how in before.items():
            signal.signal(it, how)


@contextlib.contextmanager
def held(is_last: bool = False) -> Iterator[None]:
    """Has signals that end the command come behind a step that is done as a whole. Behind the last step they are too late."""
    ending = {signal.SIGINT, *SAID}
    before = signal.pthread_sigmask(signal.SIG_BLOCK, ending)
    try:
        yield
        while is_last and signal.sigpending() & ending:
            signal.sigwait(signal.sigpending() & ending)
    finally:
        signal.pthread_sigmask(signal.SIG_SETMASK, before)


def too_late() -> None:
    """Has signals that end the command be too late from now on: what it is to do is done. It is called by the main thread."""
    for it in (signal.SIGINT, *SAID):
        signal.signal(it, signal.SIG_IGN)


def ended(name: str, run: Callable[[], int], of_files: tuple[type[Exception], ...] = (OSError,)) -> int:
    """Runs a command, and returns its status. Where it ends early a line says why. `of_files` is what files raise."""
    ending: tuple[type[BaseException], ...] = (Stopped, MemoryError, KeyboardInterrupt, Signalled, *of_files)
    with streams.prepared(), signals_taken():
        try:
            try:
                return run()
            finally:
                sys.stdout.flush()
        except ending as error:
            text, status = outcome(error)
        say(name, text)
        return status
