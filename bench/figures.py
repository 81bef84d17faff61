"""The tables of a document, which figures of theirs changed, and which lines of prose have these."""

import re
from itertools import takewhile
from typing import Iterator, NamedTuple, Optional, Sequence

from timing import STAMP

# A number as it is in a cell or in prose, such as 12, 0.29 or 1,234.5, and no part of a name, a version or a day.
NUMBER = re.compile(r"(?<![\w.,-])(?:\d{1,3}(?:,\d{3})+|\d+)(?:\.\d+)?(?![\w-]|[.,]\d)")
# A figure that differs by more than this part of it has changed.
A_TENTH = 0.1
# Below another heading than its table's a figure is looked for where it has so many digits; a shorter one may be any other number.
DIGITS = 3

# The figures of a table that changed, each with what is there now.
Changes = dict[str, list[str]]


class Shown(NamedTuple):
    """A table of a document: the heading that it is below, its heads as a line, the cells of its rows, and the day and the commit of
    its figures, which are None where the document doesn't say."""

    section: str
    heads: str
    rows: list[list[str]]
    day: Optional[str]
    commit: Optional[str]


def sections(text: str) -> Iterator[tuple[int, str, str, bool]]:
    """The lines of a document, each with its number, the heading that it is below, and whether it is in a block of code."""
    heading, is_code = "", False
    for number, line in enumerate(text.split("\n"), 1):
        is_code ^= line.lstrip().startswith("```")
        if not is_code and line.startswith("#"):
            heading = line.lstrip("# ")
        yield number, line, heading, is_code


def tables(text: str) -> list[Shown]:
    """The tables of a document."""
    found: list[Shown] = []
    before = ""
    for _, line, heading, is_code in sections(text):
        if not is_code and line.startswith("|"):
            cells = [it.strip() for it in line.strip().strip("|").split("|")]
            if not before.startswith("|"):
                stamp = STAMP.fullmatch(before)
                found.append(Shown(heading, line, [], *((stamp[1], stamp[2]) if stamp else (None, None))))
            elif set(line) - set("|-: "):
                found[-1].rows.append(cells)
        before = line
    return found


def labels(rows: Sequence[Sequence[str]]) -> int:
    """How many cells at the head of each row tell the rows apart."""
    most = max(map(len, rows), default=0)
    return next((count for count in range(1, most) if len({tuple(it[:count]) for it in rows}) == len(rows)), 1)


def value(text: str) -> float:
    return float(text.replace(",", ""))


def changed(old: Shown, new: Shown) -> Changes:
    """The figures of a table that differ by more than a tenth in another table with its heads, or aren't in it, each with what is
    there now."""
    count = labels(old.rows)
    now = {tuple(it[:count]): it for it in new.rows}
    found: Changes = {}
    for row in old.rows:
        other = now.get(tuple(row[:count]), [])
        for at, cell in enumerate(row[count:], count):
            before, after = (NUMBER.findall(it) for it in (cell, other[at] if at < len(other) else ""))
            for place, figure in enumerate(before):
                there = after[place] if len(after) == len(before) else None
                if there is None or abs(value(there) - value(figure)) > A_TENTH * value(figure):
                    found.setdefault(figure, []).append(there or "gone")
    return found


def prose(text: str) -> Iterator[tuple[int, str, str]]:
    """The lines of prose of a document, with their numbers and headings, without the number of a point of a list."""
    for number, line, heading, is_code in sections(text):
        if not is_code and line and not line.startswith(("|", "#", "<!--", "!", "```")):
            yield number, re.sub(r"^\s*\d+\. ", "", line), heading


def is_long(figure: str) -> bool:
    """Whether a figure has so many digits that it is hardly another number, zeros at its ends left out."""
    return len(figure.replace(",", "").replace(".", "").strip("0")) >= DIGITS


def lines_to_mend(text: str, name: str, by_section: dict[str, Changes]) -> Iterator[str]:
    """Says of each line of prose of the document with the measures which figures it has that changed: `by_section` has those by the
    heading of their table."""
    everywhere = {figure: there for each in by_section.values() for figure, there in each.items() if is_long(figure)}
    for number, line, heading in prose(text):
        yield from to_mend(name, number, line, {**everywhere, **by_section.get(heading, {})})


def lines_elsewhere(text: str, name: str, by_section: dict[str, Changes]) -> Iterator[str]:
    """The same of a document of which some paragraphs name bench."""
    known = {figure: there for each in by_section.values() for figure, there in each.items()}
    lines = text.split("\n")
    for number, line, _ in prose(text):
        before, after = lines[: number - 1][::-1], lines[number:]
        paragraph = [line, *(it for part in (before, after) for it in takewhile(str.strip, part))]
        if any("bench/" in it for it in paragraph):
            yield from to_mend(name, number, line, known)


def to_mend(name: str, number: int, line: str, known: Changes) -> Iterator[str]:
    """What is to be said of a line of prose, where it has a figure of those that changed."""
    found = {it: known[it] for it in NUMBER.findall(line) if it in known}
    if found:
        said = ", ".join(f"{figure} ({' or '.join(sorted(set(there))[:3])} now)" for figure, there in found.items())
        yield f"{name}:{number}: {said}: {line.strip()}"


def other_lines(text: str, by_section: dict[str, Changes]) -> dict[str, list[int]]:
    """The numbers of the lines of prose with any other figure, by the heading of a table that changed: figures that were reckoned of
    it may be there."""
    found: dict[str, list[int]] = {}
    for number, line, heading in prose(text):
        if by_section.get(heading) and any(it not in by_section[heading] for it in NUMBER.findall(line)):
            found.setdefault(heading, []).append(number)
    return found
