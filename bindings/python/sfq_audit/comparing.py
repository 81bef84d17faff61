"""What sfq says of a pair, and in what an engine's answer differs from it."""
from __future__ import annotations

import re
from typing import Any, NamedTuple, Optional, Sequence

from . import predicates
from .asking import Failure, Sfq
from .engines import MATRIX, OF_PREDICATES, VALIDITY, Two
from .predicates import NAMES as PREDICATES

PARTS = ("interior", "boundary", "exterior")
CELLS = tuple(f"{l} {k}" for l in PARTS for k in PARTS)
FORMS = {MATRIX: re.compile("[F012]{9}"), OF_PREDICATES: re.compile(r"[01*-]{8}"), VALIDITY: re.compile(r"[01*-]{2}")}
REFUSES, MALFORMED, NO_ANSWER = "refuses a valid pair", "answers in another form", "has no answer"
# The faults that only sfq's own rules have: where parts of an area share a point, the standard lets one in some places.
STRICTER = ("V4", "V7")


class Expected(NamedTuple):
    """What sfq says of a pair: its answer, in which * is what isn't compared, or why it has none."""

    answer: str
    fault: str = ""


class Difference(NamedTuple):
    """In what an answer differs: the kind, and the cells, predicates or geometries that differ, by their names."""

    kind: str
    names: tuple[str, ...] = ()


def validity(fault: str) -> str:
    """Returns whether a geometry is valid by the standard's rules: * where only sfq's are stricter, or the text is refused."""
    return "1" if not fault else "*" if fault in STRICTER or fault[0] == "W" else "0"


def expected(sfq: Sfq, ask: str, pairs: Sequence[Two]) -> list[Expected]:
    """Returns what sfq says of each pair."""
    if ask == VALIDITY:
        faults = sfq.faults([text for pair in pairs for text in pair])
        both = [(faults[at], faults[at + 1]) for at in range(0, len(faults), 2)]
        return [Expected(validity(first) + validity(second), next((it for it in (first, second) if it[:1] == "W"), "")) for first, second in both]
    found = [Expected("", line) if line[0] in "fs" else Expected(line) for line in sfq.lines(pairs)]
    if ask == MATRIX:
        return found
    return [it if it.fault else Expected(predicates.held(it.answer, pair)) for it, pair in zip(found, pairs)]


def differing(names: Sequence[str], wanted: str, answer: str) -> tuple[str, ...]:
    return tuple(name for name, one, other in zip(names, wanted, answer) if one != other and one != "*" != other)


def difference(ask: str, wanted: Expected, answer: Any) -> Optional[Difference]:
    """Returns in what an answer differs from sfq's, or None."""
    if answer == wanted.answer:
        return None
    if isinstance(answer, Failure):
        return Difference(answer.kind)
    if answer == "-":
        return Difference(NO_ANSWER)
    if answer.startswith("!"):
        # Of a geometry that isn't valid a refusal is as good as the answer that it isn't.
        return None if ask == VALIDITY and "0" in wanted.answer else Difference(REFUSES)
    if not FORMS[ask].fullmatch(answer):
        return Difference(MALFORMED)
    names = {MATRIX: CELLS, OF_PREDICATES: PREDICATES, VALIDITY: ("first", "second")}[ask]
    found = differing(names, wanted.answer, answer)
    if not found:
        return None
    return Difference(NO_ANSWER if all(answer[names.index(it)] == "-" for it in found) else "differs", found)


def predicates_differing(pair: Two, wanted: str, answer: str) -> tuple[str, ...]:
    """Returns the predicates in which two matrices differ."""
    return differing(PREDICATES, predicates.held(wanted, pair), predicates.held(answer, pair))
