"""What a query over imported tables has to know: columns that count steps, texts on the grid, rows that are parts, reference systems.

The library says which tables the query names, and cuts the query into tokens. The rest isn't proved.
"""
from __future__ import annotations

import math
import re
from decimal import Decimal
from fractions import Fraction
from typing import Any, Callable, Iterator, NamedTuple, Optional

from ..geometry.counts import number_of
from ..tables import databases, parts
from . import asking, constants, exports, units, wholes
from .asking import encoded

# The predicates by their names in capitals; those of parts that say what they say of the whole.
PREDICATES = {it.upper(): it for it in databases.PREDICATES}
OF_PARTS = ("ST_Intersects", "ST_Disjoint")
# What comes behind a column that is compared with a number, and before one, in tokens without blanks between.
BEHIND, BEFORE = re.compile(r"[=<>!]+[+-]?[0-9]"), re.compile(r"[0-9][=<>!]+\Z")


# The signs of comparisons, with the sign that is meant where the two sides change places; what a number that lies between two steps becomes.
FLIPPED = {"=": "=", "<>": "<>", "!=": "!=", "<": ">", ">": "<", "<=": ">=", ">=": "<="}
ROUNDED: dict[str, Callable[[Fraction], int]] = {">": math.floor, "<=": math.floor, "<": math.ceil, ">=": math.ceil}
SIGNS, COMPUTES = ("+", "-"), ("+", "-", "*", "/", "%", "||")


class Named(NamedTuple):
    """A column that a query names: the first and the last of its tokens, its name in lower case, and its table."""

    first: int
    last: int
    name: str
    layer: units.Layer


class Literal(NamedTuple):
    """A number of a query: its first token, the one behind it, and its text."""

    first: int
    end: int
    text: str


class Call(NamedTuple):
    """A call of a predicate: its name, its byte, the tables of the columns with geometries in it, and its constants."""

    name: str
    at: int
    layers: list[units.Layer]
    constants: list[str]


class Conditions:
    """The tokens of a query, and what they name of a folder that was imported."""

    def __init__(self, query: str, folder: units.Folder, made: str = "") -> None:
        """Reads a query as the user wrote it. `made` is what sfq gets of it, if that is another text."""
        self.query, self.folder, self.layers = query, folder, folder.layers_of(made or query)
        self.tokens = [it for it in parts.parts(query) if it.kind != parts.END]
        self.words = [query[it.at : it.end] for it in self.tokens]
        # Items are before it, and conditions behind it.
        self.begin = next((at for at, it in enumerate(self.words) if it.upper() == "FROM"), len(self.words))
        # The last tokens of the columns of decimal numbers whose conditions have them as the source has them.
        self.compared: set[int] = set()
        # Whether records that are several rows are related as wholes, or nothing is, as in a query with a fault; else why they can't be.
        self.is_of_wholes, self.is_faulty, self.uncovered = False, False, ""
        # Whether the predicate at a byte says of parts what it says of records, where that was asked.
        self.same: dict[int, bool] = {}

    def columns(self, first: int, last: int) -> Iterator[Named]:
        """Returns the columns of the tokens from a place on and before another. A name alone is that of each table that has it."""
        for at in range(first, last):
            name, is_behind_point = self.words[at].lower(), at > 1 and self.words[at - 1] == "."
            aliases = [self.words[at - 2].lower()] if is_behind_point else list(self.layers)
            for it in aliases:
                if it in self.layers and name in self.layers[it].columns and self.words[at + 1 : at + 2] != ["."]:
                    yield Named(at - 2 * is_behind_point, at, name, self.layers[it])

    def calls(self) -> Iterator[Call]:
        """Returns the calls of predicates, in one pass. A column is of the innermost call that it is in: sfq takes none within another."""
        found: list[Call] = []
        # The call that each open parenthesis is in, if any; how many bytes are before this token and the last one.
        opened: list[Optional[Call]] = []
        size = end = before = 0
        for at, word in enumerate(self.words):
            begin = self.tokens[at].at
            size, end = size + len(encoded(self.query[end:begin])), begin
            if word == "(":
                name = PREDICATES.get(self.words[at - 1].upper()) if at else None
                opened.append(Call(name, before, [], []) if name else opened[-1] if opened else None)
                found += [it for it in opened[-1:] if it and name]
            elif word == ")" and opened:
                opened.pop()
            elif opened and opened[-1] and self.tokens[at].constant == parts.GEOMETRY:
                opened[-1].constants.append(word[1:-1])
            elif opened and opened[-1]:
                opened[-1].layers.extend(it.layer for it in self.columns(at, at + 1) if it.layer.columns[it.name]["type"] in exports.GEOMETRIC)
            before = size
        return iter(found)

    def says_the_same(self, call: Call) -> bool:
        """Whether a predicate says of the parts of each record what it says of the record."""
        if call.at not in self.same:
            self.same[call.at] = wholes.say_the_same(self.folder, call.name, call.layers, call.constants)
        return self.same[call.at]

    def refused(self, name: str, call: Call, reason: str) -> asking.Refused:
        """Returns why a command of this name asks no call."""
        return asking.Refused(f"{name}: {reason}\n{asking.placed(encoded(self.query), call.at)}", asking.QUERY)

    def need_lawful(self, name: str) -> None:
        """Refused where a predicate is asked of parts that says nothing of the whole, or of geometries in two reference systems."""
        for call in self.calls():
            parted = [it.said["table"] for it in call.layers if it.has_parts]
            if parted and not (self.is_of_wholes or self.is_faulty) and call.name not in OF_PARTS and not self.says_the_same(call):
                reason = self.uncovered or f"so it takes {' and '.join(OF_PARTS)} alone"
                raise self.refused(name, call, f"{call.name} of a part says nothing of the whole: {parted[0]} has records in parts, {reason}{advice(call.layers)}")
            known = [it for it in call.layers if it.system]
            for it in known[1:]:
                if not may_be_same(it.system, known[0].system):
                    one, other = (f"{each.said['table']} is in {label(each.system)}" for each in (known[0], it))
                    raise self.refused(name, call, f"{one}, and {other}: --to EPSG:N moves all to one system")

    # ---- decimal numbers ----

    def word(self, at: int) -> str:
        """Returns a token in capitals, nothing where there is none."""
        return self.words[at].upper() if 0 <= at < len(self.words) else ""

    def literal(self, first: int) -> Optional[Literal]:
        """Returns the number that begins with a token, None where none does, or where something is computed of it."""
        at = first + (self.word(first) in SIGNS)
        end = at
        while end < len(self.words) and (self.tokens[end].kind == parts.DIGITS or self.words[end] == ".") and \
                (end == at or self.tokens[end].at == self.tokens[end - 1].end):
            end += 1
        text = "".join(self.words[first:end])
        if not constants.NUMBER.fullmatch(text) or self.word(end) in COMPUTES:
            return None
        # What goes on without a blank is no number, as 1e5.
        return None if end < len(self.words) and self.tokens[end].kind == parts.WORD and self.tokens[end].at == self.tokens[end - 1].end else Literal(first, end, text)

    def literal_before(self, end: int) -> Optional[Literal]:
        """Returns the number that ends before a token, None where none does, or where something is computed of it."""
        first = end
        while first and (self.tokens[first - 1].kind == parts.DIGITS or self.words[first - 1] == ".") and (first == end or self.tokens[first - 1].end == self.tokens[first].at):
            first -= 1
        if first and self.word(first - 1) in SIGNS and (first < 2 or self.word(first - 2) in ("(", ",", "AND", "OR", "NOT", "ON", "WHERE")):
            first -= 1
        found = self.literal(first) if first < end else None
        return found if found and found.end == end and self.word(first - 1) not in COMPUTES else None

    def comparisons(self, it: Named) -> Iterator[tuple[Literal, str]]:
        """Yields the numbers with which a column is compared, each with the sign that would be between the column and the number."""
        sign, number = self.word(it.last + 1), self.literal(it.last + 2)
        if sign in FLIPPED and number:
            yield number, sign
        at = it.last + 1 + (sign == "NOT")
        if self.word(at) == "BETWEEN":
            low = self.literal(at + 1)
            high = self.literal(low.end + 1) if low and self.word(low.end) == "AND" else None
            if low and high:
                yield from ((low, ">="), (high, "<="))
        sign, before = self.word(it.first - 1), self.literal_before(it.first - 1)
        if sign in FLIPPED and before:
            yield before, FLIPPED[sign]

    def numbers(self, name: str) -> list[constants.Number]:
        """Returns the numbers that columns of decimal numbers are compared with, in their steps. Refused, by a command of this name, where no number
        of such a column is equal to one, and where columns with different steps are compared."""
        found = {}
        columns = list(self.columns(self.begin, len(self.words)))
        firsts = {it.first: it for it in columns}
        for it in columns:
            step = it.layer.columns[it.name].get("step") or "1"
            other = firsts.get(it.last + 2) if self.word(it.last + 1) in FLIPPED else None
            if other and (is_decimal(it) or is_decimal(other)) and Decimal(step) != Decimal(other.layer.columns[other.name].get("step") or "1"):
                raise self.misplaced(name, it.first, f"{it.name} counts steps of {step}, and {other.name} others: import both in one call, or by --scale with one step")
            for number, sign in self.comparisons(it) if is_decimal(it) and self.word(it.first - 1) not in COMPUTES else ():
                steps = Fraction(number.text) / Fraction(step)
                if steps.denominator > 1 and sign not in ROUNDED:
                    raise self.misplaced(name, number.first, f"no {it.name} is {number.text}: its numbers have steps of {step}")
                made = str(ROUNDED.get(sign, math.floor)(steps))
                found[number.first] = constants.Number(self.tokens[number.first].at, self.tokens[number.end - 1].end, made)
                self.compared.add(it.last)
        return list(found.values())

    def misplaced(self, name: str, token: int, reason: str) -> asking.Refused:
        """Returns why a command of this name asks no query with such a token."""
        return asking.Refused(f"{name}: {reason}\n{asking.placed(encoded(self.query), len(encoded(self.query[: self.tokens[token].at])))}", asking.QUERY)

    def notes(self) -> list[str]:
        """Returns what may be taken otherwise than it is meant."""
        found = []
        for it in self.columns(self.begin, len(self.words)):
            step = it.layer.columns[it.name].get("step") if it.last not in self.compared else None
            behind, before = "".join(self.words[it.last + 1 : it.last + 5]), "".join(self.words[max(it.first - 3, 0) : it.first])
            if step and (BEHIND.match(behind) or BEFORE.search(before)):
                found.append(f"{it.name} counts steps of {step} in a condition")
        if any(it.upper() == "ST_ASTEXT" for it in self.words[self.begin :]):
            found.append("ST_AsText in a condition is the text on the grid, in whole steps")
        for layer in self.layers.values():
            if layer.has_parts:
                parted = layer.said["parted"]
                said = f"{number_of(parted['records'], 'record')} of {layer.said['table']} {'is' if parted['records'] == 1 else 'are'} in {number_of(parted['rows'], 'part')}"
                found.append(f"{said}: they were put together again and related as wholes, which isn't proved" if self.is_of_wholes else
                             f"{said}, each a row: those of one have the same number in {parted['whole']}, and one is disjoint from another "
                             "where all its parts are")
        return list(dict.fromkeys(found))


def advice(layers: list[units.Layer]) -> str:
    """Returns which option of an import makes no parts of records whose rings touch, nothing where there are none."""
    count = sum({str(it.said["table"]): it.said["parted"].get("touching", 0) for it in layers if it.has_parts}.values())
    return f"; --invalid leave-out leaves out the {count:,} whose rings touch" if count else ""


def is_decimal(it: Named) -> bool:
    """Whether a column counts steps that an import found."""
    return bool(it.layer.columns[it.name].get("is_decimal"))


def may_be_same(one: Any, other: Any) -> bool:
    """Whether two reference systems of grid.json may be the same: nothing is known where only one has a code."""
    if bool(one["authority"]) != bool(other["authority"]):
        return True
    return bool(one["authority"] == other["authority"] and (one["authority"] or one["wkt"] == other["wkt"]))


def label(system: Any) -> str:
    """Returns what a reference system of grid.json is called."""
    return str(system["authority"] or "a system without a code")
