"""What sfq writes for a list of calls: by the proved program where ./build made it, and else by the kept unproved one."""
import subprocess
from typing import NamedTuple, Sequence

import repository
import unproved


class Answer(NamedTuple):
    """What one call wrote, and its status."""

    out: bytes
    err: bytes
    status: int


def by(program: str, calls: Sequence[Sequence[str]]) -> list[Answer]:
    """Returns what a program writes for each call, in order. Paths in them count from the root of the repository."""
    answers = []
    for words in calls:
        ran = subprocess.run([program, *words], cwd=repository.ROOT, stdin=subprocess.DEVNULL, capture_output=True)
        answers.append(Answer(ran.stdout, ran.stderr, ran.returncode))
    return answers


def by_program(calls: Sequence[Sequence[str]]) -> list[Answer]:
    """Returns what the proved program writes."""
    return by(repository.PROGRAM, calls)


def by_unproved(calls: Sequence[Sequence[str]]) -> list[Answer]:
    """Returns what the unproved program writes, which is built first where none is kept."""
    return by(unproved.kept_program(), calls)


def ask(calls: Sequence[Sequence[str]]) -> list[Answer]:
    """Returns the answer to each call, in order."""
    return by_program(calls) if repository.is_built() else by_unproved(calls)
