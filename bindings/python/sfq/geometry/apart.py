"""Has a process of its own make a text by a call of C, so that a signal ends it at once, and its memory has a limit."""
from __future__ import annotations

import contextlib
import ctypes
import os
import resource
import select
import signal
import warnings
from typing import Callable

# The option of prctl that says which signal a process gets when its parent ends.
PARENT_DEATH_SIGNAL = 1
# How many milliseconds pass at most until an exception is seen that another thread raises here.
WAIT = 200


def text_of(make: Callable[[], str], most_bytes: int) -> str:
    """Returns a text that a process of its own makes, with at most so many bytes of memory beside those that this one has.

    MemoryError where these are too few. An exception that comes meanwhile, such as that of Ctrl-C, ends the process.
    """
    reading, writing = os.pipe()
    number = 0
    try:
        with warnings.catch_warnings():
            # The child makes a call of C, writes, and ends: it waits for no thread.
            warnings.simplefilter("ignore", DeprecationWarning)
            number = os.fork()
        if not number:
            write_text(make, most_bytes, writing)
        os.close(writing)
        writing = -1
        return received(reading)
    finally:
        for it in (reading, writing):
            if it >= 0:
                os.close(it)
        if number:
            with contextlib.suppress(ProcessLookupError, ChildProcessError):
                os.kill(number, signal.SIGKILL)
                os.waitpid(number, 0)


def write_text(make: Callable[[], str], most_bytes: int, writing: int) -> None:
    """Makes the text in the process that was begun, writes it behind a sign that it is there, and ends the process."""
    try:
        os.setpgid(0, 0)
        ctypes.CDLL(None).prctl(PARENT_DEATH_SIGNAL, signal.SIGKILL)
        limit_memory(most_bytes)
        found = b"+" + make().encode()
        while found:
            found = found[os.write(writing, found):]
    finally:
        os._exit(0)


def limit_memory(more: int) -> None:
    """Lets this process have so many bytes of memory more than it has."""
    with open("/proc/self/statm", encoding="ascii") as file:
        pages = int(file.read().split()[0])
    known = resource.getrlimit(resource.RLIMIT_AS)
    most = min(it for it in (pages * resource.getpagesize() + more, *known) if it != resource.RLIM_INFINITY)
    resource.setrlimit(resource.RLIMIT_AS, (most, known[1]))


def received(reading: int) -> str:
    """Returns the text that comes through a pipe. MemoryError where the process ended without one."""
    events, found, more = select.poll(), b"", b"+"
    events.register(reading, select.POLLIN)
    while more:
        if events.poll(WAIT):
            more = os.read(reading, 65_536)
            found += more
    if not found:
        raise MemoryError("sfq: out of memory")
    return found[1:].decode()
