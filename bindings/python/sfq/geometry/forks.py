"""What one thread at a time may use, in the processes that are forked too.

A process that is forked has one thread, and a copy of all else: of locks that other threads held, which nobody gives back there, and of
what a call of the library was changing. So each thing that is held knows the process. In a child what no other thread held goes on; what
one held is lost.
"""
from __future__ import annotations

import functools
import os
import re
import threading
from typing import Any, Callable, Iterable, Sequence, TypeVar

Found = TypeVar("Found")


class Process:
    """What is known of this process: how many forks led to it, which thread it began with, and a lock for taking things over."""

    def __init__(self) -> None:
        self.forks, self.first, self.taking = 0, 0, threading.RLock()

    def begin(self) -> None:
        """Notes that this is the child of a fork."""
        self.forks, self.first, self.taking = self.forks + 1, threading.get_ident(), threading.RLock()


HERE = Process()
os.register_at_fork(after_in_child=HERE.begin)
# What Python shows of a lock that says which thread has it.
OWNER = re.compile(r"\bowner=(\d+)")


class Held:
    """What one thread at a time has. A thread that has it may take it again."""

    __slots__ = ("_forks", "_lock")

    def __init__(self) -> None:
        self._lock, self._forks = threading.RLock(), HERE.forks

    @property
    def lock(self) -> Any:
        """The lock, in this process."""
        if self._forks != HERE.forks:
            self._take_over()
        return self._lock

    def alone(self, work: Callable[[], Found]) -> Found:
        """Returns what `work` returns while this thread has it."""
        return while_held((self.lock,), work)

    @property
    def is_lost(self) -> bool:
        """Whether another thread had it when the process was forked."""
        return self._forks != HERE.forks and owner(self._lock) not in (0, HERE.first)

    def _take_over(self) -> None:
        with HERE.taking:
            if self.is_lost:
                self.renew()
            # A thread that waited for the lock may have got it, and not be its owner yet.
            if self._forks != HERE.forks and owner(self._lock) != HERE.first:
                self._lock = threading.RLock()
            self._forks = HERE.forks

    def renew(self) -> None:
        """Makes anew what is lost, or raises an exception that says that it is."""
        raise NotImplementedError


def owner(lock: Any) -> int:
    """Returns the number of the thread that has a lock, 0 where none has."""
    found = OWNER.search(repr(lock))
    return int(found[1]) if found else 0


def held_by(find: Callable[[Any], Held]) -> Callable[[Callable[..., Found]], Callable[..., Found]]:
    """Has a method run while its thread has what `find` returns of the method's object."""

    def of_method(method: Callable[..., Found]) -> Callable[..., Found]:
        @functools.wraps(method)
        def run(it: Any, *words: Any) -> Found:
            return find(it).alone(lambda: method(it, *words))

        return run

    return of_method


def alone(many: Iterable[Held], work: Callable[[], Found]) -> Found:
    """Returns what `work` returns while this thread has each of many. Threads that want some of the same take them in one order."""
    return while_held([it.lock for it in sorted({id(it): it for it in many}.values(), key=id)], work)


def while_held(locks: Sequence[Any], work: Callable[[], Found]) -> Found:
    """Returns what `work` returns while this thread has locks.

    A signal such as Ctrl-C may come as soon as one is taken. In some versions of Python a `with` hasn't begun then, and would never
    give it back.
    """
    try:
        for it in locks:
            it.acquire()
        return work()
    finally:
        try:
            release(locks)
        except BaseException:
            # The signal came meanwhile.
            release(locks)
            raise


def release(locks: Sequence[Any]) -> None:
    """Gives back those of the locks that this thread has."""
    for it in locks:
        try:
            it.release()
        except RuntimeError:
            # This thread hasn't got it, or has given it back already.
            pass
