"""What is said of a name that isn't there: the one that may be meant, and those that there are."""
from __future__ import annotations

import itertools
from typing import Optional, Sequence

from . import parts
from .errors import Error
from .statements import Table, mentioned

# How many edits a name is away that may be meant, how many bytes a name has that is compared, and how many names are listed.
MOST_EDITS, MOST_BYTES, MOST_LISTED = 2, 64, 32


def edits(one: bytes, other: bytes) -> int:
    """Returns how many bytes have to be changed, left out or added (Levenshtein's distance)."""
    before = list(range(len(other) + 1))
    for at, it in enumerate(one, 1):
        now = [at]
        for to, its in enumerate(other):
            now.append(min(before[to] + (it != its), before[to + 1] + 1, now[to] + 1))
        before = now
    return before[-1]


def nearest(name: str, names: Sequence[str]) -> Optional[str]:
    """Returns the name that is nearest in any ASCII case, of several the first, if it is near, as `--why` of the program finds it: at most two
    edits away, and no more than half of the bytes of this name, of which there are at most 64. Else None."""
    word, *others = (it.encode("utf-8", "surrogateescape").lower() for it in (name, *names))
    most = min(len(word) // 2, MOST_EDITS)
    # No fewer edits lead to a name than its length differs by.
    near = [(edits(word, it), at) for at, it in enumerate(others) if abs(len(word) - len(it)) <= most] if len(word) <= MOST_BYTES else []
    least, at = min(near, default=(MOST_EDITS + 1, 0))
    return names[at] if least <= most else None


def said(front: str, name: str, names: Sequence[str], verb: str = "there are") -> str:
    """Returns a sentence about a name that isn't there: the nearest one as a question, and those that there are."""
    near, listed = nearest(name, names), [*names[:MOST_LISTED], *([".."] if len(names) > MOST_LISTED else [])]
    verb = "there is" if verb == "there are" and len(names) == 1 else verb
    return f"{front}: {f'did you mean {near}? ' if near else ''}{verb} {', '.join(listed) or 'none'}"


def reason(error: Error, at: Optional[int], query: str, known: Sequence[Table]) -> str:
    """Returns what is said of the fault of a query: of a table or a column that isn't there, what there is in tables of these definitions.

    `at` is the byte of its place in this text of the query.
    """
    if error.code not in ("Q3", "Q5") or at is None:
        return error.reason
    behind = query.encode("utf-8", "surrogateescape")[at:].decode("utf-8", "surrogateescape")
    first, point, column, *_ = [*(behind[it.at : it.end] for it in itertools.islice(parts.parts(behind), 3)), "", "", ""]
    if error.code == "Q3":
        return said(f"there is no table {first}", first, [it.name for it in known])
    tables = mentioned(query, list(known))
    if point != ".":
        names = dict.fromkeys(name for it in tables.values() for name, _ in it.columns)
        return said(f"there is no column {first}", first, list(names))
    if first.lower() not in tables:
        return said(f"FROM has no table {first}", first, list(tables), "it has")
    return said(f"{first} has no column {column}", column, [name for name, _ in tables[first.lower()].columns])
