"""Work that is shared out to processes, each a copy of this one that does a part of it and sends back what it found.

None of it is proved. A process that fails sends nothing, and the part is done here. No copy outlives the work, whatever ends it.
"""
from __future__ import annotations

import contextlib
import ctypes
import functools
import mmap
import os
import pickle
import selectors
import signal
import struct
from typing import Any, Callable, Sequence, TypeVar

from ..geometry.apart import PARENT_DEATH_SIGNAL

# How many processes there are at most, and how long one waits before it looks how far they are, in seconds.
MOST, PACE = 4, 0.1
SIGNALS = {signal.SIGINT, signal.SIGTERM, signal.SIGHUP}
COUNT = struct.Struct("=q")
Found = TypeVar("Found")


def available() -> int:
    """Returns how many processes can work at once."""
    return min(MOST, len(os.sched_getaffinity(0))) if hasattr(os, "sched_getaffinity") else 1


class Worker:
    """A process that does one part. `counts` has a place where it says how far it is."""

    def __init__(self, work: Callable[[Callable[[int], None]], Any], counts: mmap.mmap, place: int) -> None:
        """Begins the process, with signals blocked. OSError where the system has no more."""
        self.reading, writing = os.pipe()
        self.received: list[bytes] = []
        parent = os.getpid()
        try:
            self.process = os.fork()
            if not self.process:
                run(functools.partial(begin, self.reading, parent), functools.partial(work, functools.partial(count_in, counts, place)), writing)
        except OSError:
            os.close(self.reading)
            raise
        finally:
            os.close(writing)

    def receive(self) -> bool:
        """Takes what the process sent, and returns whether more may come."""
        part = os.read(self.reading, 1 << 16)
        self.received.append(part)
        return bool(part)

    def found(self) -> Any:
        """Returns what the process found, None where it failed."""
        try:
            return pickle.loads(b"".join(self.received))
        except (EOFError, pickle.UnpicklingError):
            return None

    def end(self) -> None:
        """Ends the process."""
        os.close(self.reading)
        try:
            os.kill(self.process, signal.SIGKILL)
        except ProcessLookupError:
            pass
        os.waitpid(self.process, 0)


def begin(reading: int, parent: int) -> None:
    """Closes the end that the parent reads, and has the system end this process when its parent ends, where it can."""
    os.close(reading)
    with contextlib.suppress(AttributeError):
        ctypes.CDLL(None).prctl(PARENT_DEATH_SIGNAL, signal.SIGKILL)
    if os.getppid() != parent:
        os._exit(1)


def count_in(counts: mmap.mmap, place: int, count: int) -> None:
    """Says how far a process is."""
    COUNT.pack_into(counts, place * COUNT.size, count)


def run(first: Callable[[], None], work: Callable[[], Any], writing: int) -> None:
    """Does the work of a process, and ends it: nothing of what it is a copy of is cleaned up here."""
    status = 1
    try:
        first()
        for it in SIGNALS:
            signal.signal(it, signal.SIG_DFL)
        signal.pthread_sigmask(signal.SIG_UNBLOCK, SIGNALS)
        found = work()
        with os.fdopen(writing, "wb") as file:
            pickle.dump(found, file)
        status = 0
    finally:
        os._exit(status)


def shared(parts: Sequence[Any], work: Callable[[Any, Callable[[int], None]], Found], show: Callable[[int], None]) -> list[Found]:
    """Returns what `work` finds of each part, which is given what says how far it is; `show` is called with the sum of that."""
    workers: list[Worker] = []
    counts = mmap.mmap(-1, max(1, len(parts)) * COUNT.size)
    try:
        with selectors.DefaultSelector() as selector:
            before = signal.pthread_sigmask(signal.SIG_BLOCK, ())
            try:
                # A signal comes when the process that has begun is in the list of those that are ended.
                signal.pthread_sigmask(signal.SIG_BLOCK, SIGNALS)
                for place, part in enumerate(parts):
                    workers.append(Worker(functools.partial(work, part), counts, place))
                    selector.register(workers[-1].reading, selectors.EVENT_READ, workers[-1])
            except OSError:
                # The parts that got no process are done here.
                pass
            finally:
                signal.pthread_sigmask(signal.SIG_SETMASK, before)
            while selector.get_map():
                for key, _ in selector.select(PACE):
                    if not key.data.receive():
                        selector.unregister(key.fileobj)
                show(sum(COUNT.unpack_from(counts, place * COUNT.size)[0] for place in range(len(parts))))
        found = [it.found() for it in workers]
    finally:
        for it in workers:
            it.end()
    found += [None] * (len(parts) - len(found))
    return [work(part, lambda _: None) if it is None else it for part, it in zip(parts, found)]
