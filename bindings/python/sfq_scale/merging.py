"""Makes one answer of those of the parts: a count is their sum, and rows are merged by their keys, in bounded memory.

Each part's rows begin with their keys, by which they ascend.
"""
import bisect
import os
from typing import IO, Any, Iterable, Iterator, Optional

from .faults import CLUSTER, ended

# A key or two, and what follows them.
Row = tuple[Any, ...]
# How many bytes of answers are in memory at a time, and the least of one part.
MEMORY, LEAST = 16 << 20, 16 << 10
# So many answers are merged into one while others are still to come.
MANY = 256


def records(text: bytes) -> list[bytes]:
    """Splits text at the line feeds that aren't within quotes; what is behind the last one comes last."""
    lines = text.split(b"\n")
    if b'"' not in text:
        return lines
    whole: list[bytes] = []
    parts: list[bytes] = []
    for it in lines:
        is_odd = it.count(b'"') & 1
        if parts:
            parts.append(it)
            if is_odd:
                whole.append(b"\n".join(parts))
                parts = []
        elif is_odd:
            parts.append(it)
        else:
            whole.append(it)
    # The text ends within quotes: the rest isn't whole.
    return [*whole, b"\n".join(parts)] if parts else whole


def of_one_key(line: bytes) -> Row:
    key, _, rest = line.partition(b",")
    return int(key), rest


def of_two_keys(line: bytes) -> Row:
    first, second, rest = line.split(b",", 2)
    return int(first), int(second), rest


class Part:
    """The answer of a part, in a file, whose rows are read some at a time: each its keys and what follows them."""

    def __init__(self, path: str, header: bytes, keys: int) -> None:
        self.path, self.header, self.read_row = path, header, of_one_key if keys == 1 else of_two_keys
        self.at, self.is_whole, self.open = 0, False, b""
        self.rows: list[Row] = []

    def fill(self, size: int) -> bool:
        """Reads rows until there are some, or none are left; returns whether there are some."""
        while not self.rows and not self.is_whole:
            self.read(size)
        return bool(self.rows)

    def read(self, size: int) -> None:
        """Reads so many bytes more."""
        if self.is_whole:
            return
        with open(self.path, "rb") as file:
            file.seek(self.at)
            text = file.read(size)
        is_first = self.at == 0
        self.at += len(text)
        self.is_whole = len(text) < size
        lines = records(self.open + text)
        self.open = lines.pop()
        if is_first:
            self.take_header(lines)
        if self.is_whole and self.open:
            raise ended(CLUSTER, f"an answer of a part ends within a row: {self.path}")
        if lines:
            self.rows += map(self.read_row, lines)

    def take_header(self, lines: list[bytes]) -> None:
        if not lines or lines.pop(0) + b"\n" != self.header:
            raise ended(CLUSTER, f"an answer of a part has another header: {self.path}")

    def take(self, bound: Row) -> list[Row]:
        """Returns and removes the rows up to this one."""
        place = bisect.bisect_right(self.rows, bound)
        found, self.rows = self.rows[:place], self.rows[place:]
        return found


def merged(parts: Iterable[Part], memory: int = MEMORY) -> Iterator[list[Row]]:
    """Yields lists of rows, which ascend by the keys."""
    live = list(parts)
    size = max(LEAST, memory // max(len(live), 1))
    while True:
        live = [it for it in live if it.fill(size)]
        if not live:
            return
        # Up to the least of the last rows in memory no row is missing.
        bound = min(it.rows[-1] for it in live)
        found = []
        for it in live:
            if it.rows[0] <= bound:
                found += it.take(bound)
        found.sort()
        yield found


def lines_of(rows: Iterable[Row]) -> bytes:
    """Returns the text of rows without their keys. A record of one empty field is a pair of quotes."""
    return b"\n".join([it[-1] or b'""' for it in rows]) + b"\n"


class Rows:
    """The answers of a query that lists rows. Many are merged into one as they come."""

    def __init__(self, room: str, header: bytes, own_header: bytes, keys: int, limit: Optional[int]) -> None:
        self.room, self.header, self.own, self.keys, self.limit = room, header, own_header, keys, limit
        self.made = 0
        self.parts: list[str] = []

    def add(self, path: str) -> None:
        self.parts.append(path)
        if len(self.parts) == MANY:
            self.made += 1
            path = f"{self.room}/merged-{self.made}.csv"
            with open(path, "wb") as file:
                file.write(self.header)
                for rows in self.limited():
                    file.writelines(b"%s,%s\n" % (b",".join(b"%d" % key for key in it[:-1]), it[-1]) for it in rows)
            for it in self.parts:
                os.remove(it)
            self.parts = [path]

    def limited(self) -> Iterator[list[Row]]:
        """Yields lists of rows up to the limit."""
        left = self.limit
        for rows in merged([Part(it, self.header, self.keys) for it in self.parts]):
            if left is not None:
                rows = rows[:left]
                left -= len(rows)
            if rows:
                yield rows
            if left == 0:
                return

    def write(self, out: IO[bytes]) -> None:
        """Writes the answer."""
        out.write(self.own)
        if self.limit != 0:
            for rows in self.limited():
                out.write(lines_of(rows))


class Count:
    """The answers of a COUNT(*)."""

    def __init__(self, header: bytes, limit: Optional[int]) -> None:
        self.header, self.limit, self.total = header, limit, 0

    def add(self, path: str) -> None:
        with open(path, "rb") as file:
            text = file.read()
        if self.limit == 0 and text == self.header:
            return
        if not text.startswith(self.header) or not text[len(self.header) : -1].isdigit():
            raise ended(CLUSTER, f"an answer of a part is no count: {path}")
        self.total += int(text[len(self.header) :])

    def write(self, out: IO[bytes]) -> None:
        out.write(self.header)
        if self.limit != 0:
            out.write(b"%d\n" % self.total)
