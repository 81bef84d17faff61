"""How an answer is written: as CSV, as a table, as JSON or as GeoJSON. None of it is proved."""
from __future__ import annotations

import itertools
import json
import os
import unicodedata
from typing import Callable, NamedTuple, Optional, TextIO

from ..geometry import grids, texts
from ..tables import rules
from . import exports
from .asking import Answer
from .endings import USAGE, Stopped
from .schemas import some

# How many rows of a table are looked at at a time to find how wide its columns are.
BLOCK = 1_000
GAP = "  "
CUT = "…"


class Place(NamedTuple):
    """Where answers are written, how wide that is where it is a terminal, and the folder of their tables."""

    file: TextIO
    width: Optional[int]
    folder: str


# ---- CSV ----


def record(fields: list[str]) -> str:
    """Returns a record as sfq run writes it: one without a byte is a pair of quotes."""
    return (",".join(map(rules.quoted, fields)) or '""') + "\n"


def as_csv(answer: Answer, place: Place) -> None:
    """Writes what sfq run writes."""
    place.file.write(record(answer.headers))
    for it in answer.rows:
        place.file.write(record(it))


# ---- a table ----


def shown(text: str) -> str:
    """Returns a text in one line, with a sign in place of each character that a terminal obeys."""
    if text.isprintable():
        return text
    return "".join(map(sign, text))


def sign(it: str) -> str:
    """Returns a character, or the sign of one that a terminal obeys."""
    code = ord(it)
    if code < 32:
        return chr(0x2400 + code)
    if code == 127:
        return "\u2421"
    return "\ufffd" if unicodedata.category(it) in ("Cc", "Cs", "Zl", "Zp") or it in "\u202a\u202b\u202c\u202d\u202e\u2066\u2067\u2068\u2069" else it


def columns_of(it: str) -> int:
    """Returns how many columns of a terminal a character takes: two of wide ones, none of those that join the one before (UAX 11)."""
    if it.isascii():
        return 1
    if unicodedata.category(it) in ("Mn", "Me", "Cf") or 0x1160 <= ord(it) <= 0x11FF:
        return 0
    return 2 if unicodedata.east_asian_width(it) in "WF" else 1


def width(text: str) -> int:
    """Returns how many columns of a terminal a text takes."""
    return len(text) if text.isascii() else sum(map(columns_of, text))


def cut(text: str, room: int) -> str:
    """Returns a text, or the beginning of it that fits with a sign that it goes on."""
    if width(text) <= room:
        return text
    used, kept = 0, []
    for it in text:
        used += columns_of(it)
        if used > room - 1:
            break
        kept.append(it)
    return "".join(kept) + CUT if room > 0 else ""


def fitted(widths: list[int], room: int) -> list[int]:
    """Returns widths whose sum is at most the room, where each can be 1: the widest are made narrower."""
    found, left = widths[:], room
    for number, at in enumerate(sorted(range(len(widths)), key=widths.__getitem__)):
        found[at] = min(widths[at], max(left // (len(widths) - number), 1))
        left -= found[at]
    return found


def line(fields: list[str], widths: list[int], are_right: list[bool]) -> str:
    """Returns a line of a table, each field cut to the width of its column."""
    parts = []
    for text, most, is_right in zip(fields, widths, are_right):
        text = cut(text, most)
        blanks = " " * (most - width(text))
        parts.append(blanks + text if is_right else text + blanks)
    return GAP.join(parts).rstrip(" ")


def as_table(answer: Answer, place: Place) -> None:
    """Writes an aligned table, which on a terminal is no wider than that. Columns may grow wider where a further block of rows needs it."""
    headers, are_right = list(map(shown, answer.headers)), [it in ("INTEGER", "REAL") for it in answer.types]
    widths, count = list(map(width, headers)), 0
    room = place.width and place.width - len(GAP) * (len(headers) - 1)

    def write(fields: list[str], narrowed: list[int]) -> None:
        text = line(fields, narrowed, are_right)
        place.file.write((cut(text, place.width) if place.width else text) + "\n")

    while True:
        block = [list(map(shown, it)) for it in itertools.islice(answer.rows, BLOCK)]
        widths = [max(known, *map(width, fields)) if fields else known for known, fields in zip(widths, list(zip(*block)) or [()] * len(widths))]
        narrowed = fitted(widths, room) if room is not None else widths
        if count == 0:
            write(headers, narrowed)
            write(["-" * it for it in narrowed], narrowed)
        for it in block:
            write(it, narrowed)
        count += len(block)
        if len(block) < BLOCK:
            break
    place.file.write(f"({some(count, 'row')})\n")


# ---- JSON and GeoJSON ----


def as_json(answer: Answer, place: Place) -> None:
    """Writes an array of objects, a line for each; whole numbers as numbers, geometries as their texts, null for NULL."""
    names = [json.dumps(it, ensure_ascii=False) for it in answer.headers]
    place.file.write("[")
    for number, fields in enumerate(answer.rows):
        pairs = [f"{name}:{exports.value(text, kind)}" for name, text, kind in zip(names, fields, answer.types)]
        place.file.write((",\n" if number else "") + "{" + ",".join(pairs) + "}")
    place.file.write("]\n")


def as_geojson(answer: Answer, place: Place) -> None:
    """Writes a collection of features, each with the first geometry of its row; with true coordinates where sfq-import made the tables."""
    at = next((at for at, it in enumerate(answer.types) if it in exports.GEOMETRIC), None)
    if at is None:
        raise Stopped(f"no column of the answer is a geometry: select one (there are {', '.join(answer.headers)})", USAGE)
    is_known = os.path.isfile(os.path.join(place.folder, "grid.json"))
    found = exports.known(place.folder) if is_known else exports.Known(grids.Grid("1"), {}, {})
    column = exports.column_of(answer.headers[at])
    text = exports.GeoJson(place.file, answer.headers, at, {})
    text.kinds = [kind_of(*it, found) for it in zip(answer.headers, answer.types)]
    text.begin(exports.member_of_system(exports.system_of(column, found)))
    position = exports.as_it_is(found.grid)
    for fields in answer.rows:
        text.add(exports.Row(fields, texts.coordinates(fields[at]) if fields[at] else None), position)
    text.end()


def kind_of(header: str, kind: str, found: exports.Known) -> str:
    """Returns the type of a column, or what grid.json says of one that the header names."""
    return kind if "(" in header else found.types.get(exports.column_of(header), kind)


MODES: dict[str, Callable[[Answer, Place], None]] = {"csv": as_csv, "table": as_table, "json": as_json, "geojson": as_geojson}


def show(answer: Answer, mode: str, place: Place) -> None:
    """Writes an answer in a mode. A plan is lines, but in JSON."""
    if answer.is_plan and mode != "json":
        place.file.writelines(f"{it[0]}\n" for it in answer.rows)
    else:
        MODES[mode](answer, place)
    place.file.flush()
