"""The standard streams of a command, which may be closed, full, or gone.

A message that can't be written is lost, and changes nothing else. Output that can't be written ends the command. The number of a closed
stream is never that of a file which is opened later, so nothing is written into the wrong file. None of it is proved.
"""
from __future__ import annotations

import contextlib
import io
import os
import sys
from typing import Any, Iterator, Optional, TextIO

# How a closed stream is opened: standard input can't be read then, standard output can't be written, and standard error loses all.
CLOSED = {0: os.O_WRONLY, 1: os.O_RDONLY, 2: os.O_WRONLY}
# How many bytes of output are written at once.
PIECE = 1 << 16


class Unwritten(OSError):
    """Standard output takes no more."""

    def __init__(self) -> None:
        super().__init__("write failed")


class Stream(io.RawIOBase):
    """A standard stream, by its number."""

    number = 0

    def readable(self) -> bool:
        return self.number == 0

    def writable(self) -> bool:
        return self.number > 0

    def fileno(self) -> int:
        return self.number

    def isatty(self) -> bool:
        return os.isatty(self.number)


class Input(Stream):
    """Standard input, whose faults name it."""

    def readinto(self, buffer: Any) -> Optional[int]:
        try:
            return os.readv(0, [buffer])
        except OSError as error:
            raise OSError(error.errno, error.strerror, "standard input") from None


class Output(Stream):
    """Standard output. Unwritten where a write fails; what comes later is lost."""

    number, is_lost = 1, False

    def write(self, data: Any) -> int:
        try:
            return len(data) if self.is_lost else os.write(1, data)
        except OSError:
            self.is_lost = True
            raise Unwritten() from None


class Messages(Stream):
    """Standard error. A message that can't be written is lost."""

    number = 2

    def write(self, data: Any) -> int:
        with contextlib.suppress(OSError):
            return os.write(2, data)
        return len(data)


def standard_input(newline: Optional[str] = "\n", errors: str = "surrogateescape") -> TextIO:
    """Returns standard input as text in UTF-8."""
    return io.TextIOWrapper(io.BufferedReader(Input()), encoding="utf-8", errors=errors, newline=newline)


def open_closed() -> None:
    """Opens the streams that are closed, so that no file gets their numbers."""
    for number, how in CLOSED.items():
        try:
            os.fstat(number)
        except OSError:
            found = os.open(os.devnull, how)
            if found != number:
                os.dup2(found, number)
                os.close(found)
            os.set_inheritable(number, True)


@contextlib.contextmanager
def prepared() -> Iterator[None]:
    """Has the streams of Python's module sys be those above meanwhile. One that a caller has replaced stays."""
    open_closed()
    before = sys.stdin, sys.stdout, sys.stderr
    if sys.stdin is None:
        sys.stdin = standard_input()
    if sys.stdout is sys.__stdout__:
        with contextlib.suppress(OSError, AttributeError):
            sys.stdout.flush()
        sys.stdout = io.TextIOWrapper(
            io.BufferedWriter(Output(), PIECE), encoding="utf-8", errors="surrogateescape", newline="\n", line_buffering=os.isatty(1))
    if sys.stderr is sys.__stderr__:
        sys.stderr = io.TextIOWrapper(io.BufferedWriter(Messages()), encoding="utf-8", errors="backslashreplace", newline="\n", line_buffering=True)
    try:
        yield
    finally:
        sys.stdin, sys.stdout, sys.stderr = before
