"""Makes a failing case smaller: parts, lines and bytes are dropped for as long as it still fails."""
from typing import Callable, Iterable, Iterator

from sfq_audit.smaller import stretches

from fuzz import cases


def reduced(case: cases.Case, fails: Callable[[cases.Case], bool], tries: int = 400) -> cases.Case:
    """Returns a case that still fails, after at most so many tries. `fails` asks whether a case does."""
    left, pieces = tries, [whole_parts, lines, bytes_of]
    for step in pieces:
        case, left = dropped(case, step, fails, left)
    return case


def whole_parts(case: cases.Case) -> list[cases.Case]:
    """Returns the case without a part, for each part; the words stay."""
    return [case.without(it) for it in case.parts if not it.startswith("word ")]


def lines(case: cases.Case) -> Iterator[cases.Case]:
    for name, text in case.parts.items():
        for it in stretches(text.splitlines(keepends=True)):
            yield case.with_part(name, b"".join(it))


def bytes_of(case: cases.Case) -> Iterator[cases.Case]:
    for name, text in case.parts.items():
        for it in stretches(text):
            yield case.with_part(name, it)


def dropped(case: cases.Case, step: Callable[[cases.Case], Iterable[cases.Case]], fails: Callable[[cases.Case], bool], left: int) -> tuple[cases.Case, int]:
    """Takes the first smaller case that fails, again and again; returns it, and how many tries are left."""
    is_smaller = True
    while is_smaller and left:
        is_smaller = False
        for smaller in step(case):
            if not left:
                break
            left -= 1
            if fails(smaller):
                case, is_smaller = smaller, True
                break
    return case, left
