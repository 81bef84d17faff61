"""What sfq takes of a table: names, types, the fields of its CSV and its schema, and the limits that README.md lists."""
from __future__ import annotations

import base64
import json
import re
import struct
import unicodedata
from typing import Any, Collection, NamedTuple, Optional, Sequence

RESERVED = {"select", "from", "where", "and", "or", "not", "is", "null", "join", "inner", "cross", "on", "as", "limit"}
MOST_TABLES, MOST_COLUMNS, MOST_ROWS = 16, 32, 100_000
MOST_BYTES, MOST_OF_RECORD = 1_048_576, 34_603_008
# Longer names are cut, so that the longest schema is within the limit of sfq.
LONGEST_NAME = 60
QUOTED = re.compile(r'[",\r\n]')
# A whole number that may have 64 bits: its sign, and its digits without zeros in front. Python makes no number of thousands of digits.
WHOLE = re.compile(r"([+-]?)(?=[0-9])0*([0-9]{0,19})")


class Column(NamedTuple):
    """A column: its name, the name that the source has for it, and its type. `source` is empty where the source has none.

    Of numbers with a point a TEXT column `is_real`, and an INTEGER column counts steps of the size `step`: it `is_decimal` where an import found
    that size, and conditions have its numbers as the source has them.
    """

    name: str
    source: str
    type: str
    is_real: bool = False
    step: str = ""
    is_decimal: bool = False

    def described(self) -> dict[str, Any]:
        """Returns what grid.json says of it."""
        return {name: value for name, value in self._asdict().items() if value or name in ("name", "source", "type")}


class Names:
    """Gives each name of a source one that sfq takes, and no two the same: case doesn't count."""

    def __init__(self) -> None:
        self.taken: set[str] = set()

    def of(self, name: str, otherwise: str) -> str:
        """Returns the name with letters, digits and `_` alone. Accents are left out, and a number makes it differ from those before."""
        plain = "".join(it for it in unicodedata.normalize("NFKD", name) if not unicodedata.combining(it))
        plain = re.sub(r"[^A-Za-z0-9_]", "_", plain)[:LONGEST_NAME] or otherwise
        if plain[0].isdigit() or plain.lower() in RESERVED:
            plain = f"_{plain}"
        found, number = plain, 2
        while found.lower() in self.taken:
            found, number = f"{plain}_{number}", number + 1
        self.taken.add(found.lower())
        return found


def integer(text: str) -> Optional[int]:
    """Returns the value of a whole number of 64 bits, with a sign or none; None of another text."""
    found = WHOLE.fullmatch(text)
    value = int(found[1] + (found[2] or "0")) if found else 2**63
    return value if -(2**63) <= value < 2**63 else None


def quoted(text: str) -> str:
    """Returns the field of a text, in quotes where a comma, a quote or a line end is in it."""
    return '"' + text.replace('"', '""') + '"' if QUOTED.search(text) else text


def real(value: float) -> str:
    """Returns the shortest text that is read as this double again."""
    return repr(value).removesuffix(".0")


def single(value: float) -> str:
    """Returns the shortest text that is read as this number of 32 bits again."""
    for digits in range(1, 10):
        found = f"{value:.{digits}g}"
        if struct.pack("f", float(found)) == struct.pack("f", value):
            return real(float(found))
    return real(value)


def listed(values: Any) -> str:
    """Returns a list as JSON has it."""
    return json.dumps(values, ensure_ascii=False, separators=(",", ":"))


def coded(value: bytes) -> str:
    """Returns bytes in base64."""
    return base64.b64encode(bytes(value)).decode()


def date(parts: list[Any]) -> str:
    """Returns the date of a year, a month and a day (ISO 8601)."""
    return f"{parts[0]:04}-{parts[1]:02}-{parts[2]:02}"


def time(parts: list[Any]) -> str:
    """Returns the time of day of seven numbers, to the millisecond where it isn't a whole second (ISO 8601)."""
    thousandths = round(parts[5] * 1000)
    fraction = f".{thousandths % 1000:03}" if thousandths % 1000 else ""
    return f"{parts[3]:02}:{parts[4]:02}:{thousandths // 1000:02}{fraction}"


def date_time(parts: list[Any]) -> str:
    """Returns date and time of seven numbers, with Z or the hours from it where the source says them (ISO 8601)."""
    zone, behind = parts[6], ""
    if zone == 100:
        behind = "Z"
    elif zone > 1:
        quarters = abs(zone - 100)
        behind = f"{'+' if zone > 100 else '-'}{quarters // 4:02}:{quarters % 4 * 15:02}"
    return f"{date(parts)}T{time(parts)}{behind}"


def taken(columns: list[Column], key: str) -> list[Column]:
    """Returns the columns that a schema has of a table: where sfq doesn't take all, the key, the geometries and the first others."""
    room = MOST_COLUMNS - sum(it.name == key or it.type not in ("INTEGER", "TEXT") for it in columns)
    found = []
    for it in columns:
        is_other = it.name != key and it.type in ("INTEGER", "TEXT")
        room -= is_other
        if not is_other or room >= 0:
            found.append(it)
    return found[:MOST_COLUMNS]


def chosen(columns: Sequence[Column], key: str, listed: Sequence[tuple[str, str]], words: Collection[str]) -> list[Column]:
    """Returns the columns of a table that a query gets where sfq doesn't take all: the key, the geometries, those that are among its words, which
    are in lower case, and as many as there is room for of those that a schema lists. There are too many where the query names too many."""
    needed = {it.name for it in columns if it.name == key or it.type not in ("INTEGER", "TEXT") or it.name.lower() in words}
    others = [it for it in columns if it.name not in needed and any(it.name.lower() == name.lower() for name, _ in listed)]
    kept = needed | {it.name for it in others[: max(0, MOST_COLUMNS - len(needed))]}
    return [it for it in columns if it.name in kept]


def schema(name: str, columns: list[Column], key: str) -> str:
    """Returns the CREATE TABLE of a table."""
    lines = [f"  {it.name} {it.type}{' PRIMARY KEY' if it.name == key else ''}" for it in taken(columns, key)]
    return f"CREATE TABLE {name} (\n" + ",\n".join(lines) + "\n);\n"


def too_long(row: bytes, names: list[str], fields: list[str]) -> Optional[str]:
    """Returns which limit of a record's size a row is past, or None."""
    for name, field in zip(names, fields):
        if len(field.encode()) > MOST_BYTES:
            return f"L11: {name} has more than 1,048,576 bytes"
    return "L11: the record has more than 34,603,008 bytes" if len(row) > MOST_OF_RECORD else None
