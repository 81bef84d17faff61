"""How far a run is, and how it is broken off."""
from __future__ import annotations

from typing import Any, Iterable, Iterator, TypeVar

Item = TypeVar("Item")
# After how many items the progress is said again.
EACH = 64


class Canceled(Exception):
    """The user broke the run off."""


def counted(items: Iterable[Item], total: int, feedback: Any) -> Iterator[Item]:
    """Yields the items, says how many of so many are done, and looks before each whether the run is broken off: Canceled then."""
    for done, item in enumerate(items):
        if feedback.isCanceled():
            raise Canceled()
        if done % EACH == 0 and total > 0:
            feedback.setProgress(100 * done / total)
        yield item
    feedback.setProgress(100)


def watched(items: Iterable[Item], feedback: Any) -> Iterator[Item]:
    """Yields the items, and looks before each whether the run is broken off: Canceled then."""
    for item in items:
        if feedback.isCanceled():
            raise Canceled()
        yield item
