"""Runs the system tests of one file of tests/ on the main thread, and writes what came of each.

    python3 tools/system_tests.py FILE CHOICE RESULTS [TEST..]

FILE is a name such as test_manual. CHOICE says which of its tests are run (see CHOICES), and each TEST names one of those, such as
test_manual.Manual.test_help; without any all are. RESULTS is a path, to which a line is
written for each test as it ends: a JSON object with `name`, `what` (passed, failed or skipped), `seconds`, and `text`, which is the
report of a failure or why the test is skipped.
"""
import json
import os
import runpy
import signal
import sys
import time
import traceback
import unittest
from types import TracebackType
from typing import IO, Callable, Iterator, Optional, Union

runpy.run_path(os.path.join(os.path.dirname(os.path.realpath(__file__)), "paths.py"))

import repository

# What unittest passes on of an exception.
Error = Union[tuple[type[BaseException], BaseException, TracebackType], tuple[None, None, None]]


def marked(test: unittest.TestCase, mark: str) -> bool:
    """Whether the test's class has the mark.

    ASKS_PROGRAM: it asks sfq itself, the proved program where it is built and else the unproved one.
    ASKS_LIBRARY: it calls the C library or the module of the web page, so the gate makes both first.
    IS_LONG: it takes minutes, so only ./test --long runs it. IN_GATE: and ./test --all.
    """
    return getattr(test, mark, False)


def is_short(test: unittest.TestCase) -> bool:
    return not marked(test, "IS_LONG")


def is_after_proof(test: unittest.TestCase) -> bool:
    """Whether the gate runs the test over what it has proved: it asks the program or the library, or is a long one of the gate."""
    asks = marked(test, "ASKS_PROGRAM") or marked(test, "ASKS_LIBRARY")
    return marked(test, "IN_GATE") or asks and is_short(test)


# The tests that a run wants: those of ./test, of ./test --long, of the gate before the proof and after it.
CHOICES: dict[str, Callable[[unittest.TestCase], bool]] = {
    "short": is_short,
    "all": lambda _: True,
    "before": lambda it: is_short(it) and not is_after_proof(it),
    "after": is_after_proof,
}


def shown(err: Error) -> str:
    """Returns the text of an exception, without the calls within unittest."""
    if err[1] is None:
        return ""
    found, own = traceback.TracebackException.from_exception(err[1]), os.path.dirname(unittest.__file__)
    found.stack = traceback.StackSummary.from_list([it for it in found.stack if os.path.dirname(it.filename) != own])
    return "".join(found.format())


class Result(unittest.TestResult):
    """Writes what unittest finds."""

    def __init__(self, out: IO[str]) -> None:
        super().__init__()
        self.out, self.begun = out, time.monotonic()
        self.texts: list[str] = []

    def write(self, name: str, what: str, text: str = "") -> None:
        row = {"name": name, "what": what, "seconds": time.monotonic() - self.begun, "text": text}
        self.out.write(json.dumps(row) + "\n")
        self.out.flush()

    def startTest(self, test: unittest.TestCase) -> None:
        super().startTest(test)
        self.begun, self.texts = time.monotonic(), []

    def stopTest(self, test: unittest.TestCase) -> None:
        if self.texts:
            self.write(test.id(), "failed", "\n".join(self.texts))
        super().stopTest(test)

    def addSuccess(self, test: unittest.TestCase) -> None:
        if not self.texts:
            self.write(test.id(), "passed")

    def addSkip(self, test: unittest.TestCase, reason: str) -> None:
        self.write(test.id(), "skipped", reason)

    def addError(self, test: unittest.TestCase, err: Error) -> None:
        if "setUpClass" in str(test) or not hasattr(test, "_testMethodName"):
            self.write(str(test), "failed", shown(err))
        else:
            self.texts.append(shown(err))

    addFailure = addError

    def addSubTest(self, test: unittest.TestCase, subtest: unittest.TestCase, err: Optional[Error]) -> None:
        if err:
            self.texts.append(f"{subtest}\n{shown(err)}")


def flat(suite: unittest.TestSuite) -> Iterator[unittest.TestCase]:
    for it in suite:
        if isinstance(it, unittest.TestSuite):
            yield from flat(it)
        else:
            yield it


def main(words: list[str]) -> int:
    file, choice, results, *named = words
    folder = f"{repository.ROOT}/tests"
    found = unittest.defaultTestLoader.discover(folder, pattern=f"{file}.py", top_level_dir=folder)
    with open(results, "w", encoding="utf-8") as out:
        result = Result(out)
        unittest.TestSuite(it for it in flat(found) if CHOICES[choice](it) and (not named or it.id() in named)).run(result)
    return 0


if __name__ == "__main__":
    repository.print_help(__doc__)
    # A signal is an exception, so that tests remove what they made. SIGINT too: a shell has what it runs in the background ignore it,
    # and programs that are tested would do so as well.
    for number in (signal.SIGINT, signal.SIGTERM, signal.SIGHUP):
        signal.signal(number, signal.default_int_handler)
    sys.exit(main(sys.argv[1:]))
