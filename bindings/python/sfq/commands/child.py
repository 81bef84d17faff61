"""Runs a command in a process of its own, so that a signal ends it at once."""
from __future__ import annotations

import ctypes
import os
import signal
import sys
import time
import traceback
from typing import Callable, Optional

from ..geometry.apart import PARENT_DEATH_SIGNAL
from .endings import BY_SIGNAL, Signalled

# How long a process may take to end by itself, in seconds.
GRACE = 0.08


def run(work: Callable[[], int]) -> int:
    """Runs the work, and returns its status: of work that a signal ended 128 and its number. What Ctrl-C, SIGTERM or SIGHUP leaves of it is ended.

    KeyboardInterrupt or Signalled where the work didn't end by itself at the signal, and so hasn't said it.
    """
    for it in (sys.stdout, sys.stderr):
        it.flush()
    number = 0
    try:
        number = os.fork()
        if not number:
            of_child(work)
        return status_of(os.waitpid(number, 0)[1])
    except (KeyboardInterrupt, Signalled) as error:
        sent = error.number if isinstance(error, Signalled) else signal.SIGINT
        signal.signal(signal.SIGINT, signal.SIG_IGN)
        if number and ended(number, sent) == BY_SIGNAL + sent:
            return BY_SIGNAL + sent
        if sys.stderr.isatty():
            # Behind the line that says how far it is.
            print(file=sys.stderr)
        raise


def of_child(work: Callable[[], int]) -> None:
    """Does the work in the process that was begun, with a group of its own, and ends the process."""
    status = 1
    try:
        os.setpgid(0, 0)
        # A terminal may stop what isn't of its own group when that writes.
        signal.signal(signal.SIGTTOU, signal.SIG_IGN)
        ctypes.CDLL(None).prctl(PARENT_DEATH_SIGNAL, signal.SIGKILL)
        status = work()
        for it in (sys.stdout, sys.stderr):
            it.flush()
    except BaseException:
        traceback.print_exc()
    finally:
        os._exit(status)


def status_of(found: int) -> int:
    """Returns the status of a process that ended."""
    status = os.waitstatus_to_exitcode(found)
    return status if status >= 0 else BY_SIGNAL - status


def ended(number: int, sent: int) -> Optional[int]:
    """Ends the process and its group by a signal, and returns its status, or None where it had to be killed."""
    due = time.monotonic() + GRACE
    try:
        os.killpg(number, sent)
        while time.monotonic() < due:
            found, status = os.waitpid(number, os.WNOHANG)
            if found:
                return status_of(status)
            time.sleep(0.005)
        os.killpg(number, signal.SIGKILL)
        os.waitpid(number, 0)
    except (ProcessLookupError, ChildProcessError):
        # It had no group yet, or it has ended.
        pass
    return None
