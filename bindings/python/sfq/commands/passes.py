"""One pass of an import over a layer: it reads, rounds and checks the records, writes a table, and lists what is left out or mended."""
from __future__ import annotations

import csv
import functools
import io
import os
import re
import shutil
import sys
import tempfile
from collections import Counter
from typing import IO, Any, Callable, Iterator, Mapping, NamedTuple, Optional, Sequence

from ..geometry import binary, grids
from ..geometry.faults import MEANINGS
from ..layers import batches, parting, proposing, reading, relating, snapping, touching
from ..layers.columns import Refused
from ..tables import rules
from . import batched, checking, left_out, rejects
from .endings import DATA, Stopped
from .progress import Progress

# How much is checked at a time: records, and characters of their geometries.
BATCH, BATCH_SIZE = 2_000, 1_000_000
# How often a geometry is mended, since what is mended is rounded again.
TIMES = 3
# What becomes of a record that sfq refuses: it is left out, mended by GEOS's make-valid, or rounded anew, where rounding alone broke it.
MENDED, SNAPPED = "mended", "snapped"
# The ways in which what rounding broke is mended, and areas are cut whose rings touch.
SETTLES = ("snap", "mend")
# What a reason ends with that is the record's own: the value of a field.
VALUE = re.compile(r": (['\"]).*\1$", re.S)
# The types whose texts have a comma, so that they are in quotes, and such a text at the end of a record: no quote is in it, and a quote within
# a text of another column is doubled. About how many bytes of a table are read at once.
QUOTED_TYPES = {"LINESTRING", "POLYGON", "MULTILINESTRING", "MULTIPOLYGON"}
LAST_SHAPE = re.compile(rb',"(LINESTRING|POLYGON)(\([^"\n]*)"$', re.M)
AT_ONCE = 1 << 20


class NotAscending(Exception):
    """A key isn't greater than the one before it."""


class HasParts(Exception):
    """A record has to be parted, and its table can't get columns for that any more."""


class Again(Exception):
    """The records have to be read anew, one by one."""


class Record:
    """A record on its way: its number in the layer, its FID, its fields, its geometries' texts, and why it is refused or was mended."""

    __slots__ = ("number", "fid", "fields", "texts", "parts", "reasons", "sources", "done")

    def __init__(self, number: int, fid: int, fields: list[str], texts: list[Optional[str]]) -> None:
        self.number, self.fid, self.fields, self.texts = number, fid, fields, texts
        # The texts of the parts of the one geometry of a record that is parted.
        self.parts: list[str] = []
        # Each geometry of the source as well-known binary, with its bounds.
        self.sources: list[Optional[tuple[bytes, Any]]] = []
        # Each with what is before it in the list: the column, where a layer has several geometries.
        self.reasons: tuple[tuple[str, str], ...] = ()
        # What was done for these reasons, where the record is kept.
        self.done = SNAPPED


class Means(NamedTuple):
    """What an import works with."""

    modules: reading.Modules
    checker: checking.Checker
    grid: grids.Grid
    invalid: str
    # Whether records with more positions than sfq takes are parted.
    parts: bool
    # The size of a step of each column whose numbers are to be whole.
    steps: Mapping[str, str]
    # The name of the command, for the line that says how far it is.
    name: str
    # Whether relations before and after rounding are compared, and whether records that are left out are kept for a layer.
    compares: bool = False
    rejects: bool = False
    # Makes what rounds a geometry and keeps it valid, when it is first needed; None where no GEOS can.
    reducer: Callable[[], Optional[snapping.Reducer]] = lambda: None


class Key(NamedTuple):
    """The key of a table: the column of the source, or `` for the FID and `#` for a counter."""

    source: str
    is_checked: bool = False


class Pass:
    """One pass over a layer, which writes its table."""

    def __init__(
        self, means: Means, layer: reading.Layer, key: Key, name: str, files: tuple[Any, Any], has_parts: bool = False,
    ) -> None:
        self.means, self.layer, self.key, self.name, self.has_parts = means, layer, key, name, has_parts
        self.table, self.left_out = files
        self.shift, self.rows, self.records, self.kept, self.flattened = grids.Shift(), 0, 0, 0, 0
        # Records that are parted, their parts, and what cuts put in; those of the records whose rings touch.
        self.parted, self.parts, self.put_in, self.bend, self.touching = 0, 0, 0, 0.0, 0
        self.counts: Counter[Any] = Counter()
        # How many records are left out, mended or rounded anew.
        self.done: Counter[str] = Counter()
        # Collections of one kind, and records that are left out, for a layer.
        self.gathered, self.rejected = 0, list[rejects.Rejected]()
        self.empty: Counter[str] = Counter()
        self.words: list[set[str]] = [set() for _ in layer.shapes]
        self.columns = columns(layer, key, means.steps, has_parts)
        self.scales = {it.source: grids.Scale(it.step) for it in self.columns if it.step}
        self.readers, self.key_of, self.takes = self.in_order(), self.key_reader(), [it.read for it in layer.shapes]
        self.forms: dict[str, str] = {}
        self.last_key = -1
        # What is compared of each column of geometries: None where there are too many.
        self.members: Optional[list[list[relating.Member]]] = [[] for _ in layer.shapes]
        self.uncompared = 0
        if not means.compares or layer.count() > rules.MOST_ROWS:
            self.members = None
        # Geometries that aren't valid on the grid and are left out; those that a finer grid has as they are, whatever becomes of them; and those
        # that no GEOS is there for to round anew.
        self.invalid, self.broken, self.unsnapped = 0, 0, 0

    def in_order(self) -> list[Callable[[Any], str]]:
        """Returns the readers of the columns after the key: a FID that has a name of its own first."""
        found = [self.reader(at, name) for at, name in self.layer.columns() if name != self.key.source]
        if self.key.source and self.layer.layer.GetFIDColumn():
            found.insert(0, lambda it: str(it.GetFID()))
        return found

    def reader(self, at: int, name: str) -> Callable[[Any], str]:
        """Returns the reader of a column. It raises Refused where a number isn't one, or is too large for its steps."""
        read, scale = self.layer.reader(at, self.empty), self.scales.get(name)
        if scale is None:
            return read
        if name not in self.means.steps:
            # Each number is a whole one of its steps, of at most 15 digits.
            double, unit = self.layer.double(at), 10**scale.axis.digits

            def whole_of(it: Any) -> str:
                found = double(it)
                return "" if found is None else str(round(found * unit))

            return whole_of
        whole = scale.field

        def scaled(it: Any) -> str:
            try:
                return whole(read(it))
            except grids.NotANumber as error:
                raise Refused(f"L5: {name}: {error}") from None

        return scaled

    def key_reader(self) -> Optional[Callable[[Any], Optional[int]]]:
        """Returns what reads the key, None where it is the FID."""
        if self.key.source == "#":
            return lambda _: self.records
        return self.layer.whole(self.layer.described.GetFieldIndex(self.key.source)) if self.key.source else None

    def run(self) -> None:
        """Reads all records. NotAscending where the key hasn't been looked at and doesn't ascend, Again where they have to be read one by one."""
        progress, total = Progress(self.means.name, wait=0.5), self.layer.count()
        of = f" of {total:,}" if total >= 0 else ""
        try:
            way: Iterator[int] = batched.Batched(self).run()
        except batches.NotInColumns:
            way = self.singly()
        self.table.write(self.header())
        try:
            for count in way:
                progress.show(f"{self.layer.label} {count:,}{of}")
        except batches.NotInColumns:
            self.layer.is_single = True
            raise Again() from None
        finally:
            progress.clear()

    def singly(self) -> Iterator[int]:
        """Takes all records, which are read one by one, and yields how many there are so far."""
        batch, size = [], 0
        for feature in self.layer:
            self.records += 1
            record = self.taken(feature, feature.GetFID())
            batch.append(record)
            for text in record.texts:
                size += len(text) if text else 0
            if size > BATCH_SIZE or len(batch) == BATCH:
                self.write(batch)
                batch, size = [], 0
                yield self.records
        self.write(batch)

    def need_ascending(self, fids: Sequence[int]) -> None:
        """NotAscending where the FIDs of some records can't be keys and haven't been looked at: none is less than 0, or than one before it."""
        if self.key.is_checked:
            return
        for fid in fids:
            if fid < 0 or fid <= self.last_key:
                raise NotAscending()
            self.last_key = fid

    def taken(self, feature: Any, fid: int) -> Record:
        """Returns the record of a feature, its geometries not yet checked."""
        key = self.key_of(feature) if self.key_of else fid
        self.need_ascending((fid,))
        record = self.new_record(fid, [str(key)])
        fields = record.fields
        try:
            for read in self.readers:
                fields.append(read(feature))
        except Refused as it:
            record.reasons, record.fields = (("", str(it)),), []
        for at, read in enumerate(self.takes):
            self.take_shape(record, at, functools.partial(read, feature))
        return record

    def new_record(self, fid: int, fields: list[str]) -> Record:
        """Returns the last record, without geometries."""
        return Record(self.records, fid, fields, [])

    def take_shape(self, record: Record, at: int, read: Callable[[], Any]) -> None:
        """Has a record have the text of the geometry that `read` returns, or what it is refused for."""
        try:
            geometry = read()
            if geometry is None:
                record.texts.append(None)
                record.sources.append(None)
            else:
                record.texts.append(self.text(geometry, record, at))
        except Refused as it:
            if record.fields or record.texts:
                record.reasons += ((self.column(at), str(it)),)
            record.texts.append(None)
            record.fields = []

    def column(self, at: int) -> str:
        """Returns what a reason begins with: the column, where a layer has several geometries."""
        return "" if len(self.takes) == 1 else f"{self.layer.shapes[at].name}: "

    def text(self, geometry: Any, record: Record, at: int) -> str:
        """Returns the text of a geometry on the grid, without its Z or M. Refused where sfq has none for its form, unless that is mended."""
        if geometry.Is3D() or geometry.IsMeasured():
            geometry.FlattenTo2D()
            self.flattened += 1
        alike = reading.gathered(self.means.modules.ogr, geometry, self.layer.shapes[at].word)
        if alike is not None:
            geometry, self.gathered = alike, self.gathered + 1
        given = reading.binary_of(geometry)
        record.sources.append((given, geometry.GetEnvelope()))
        try:
            return binary.text(given, self.means.grid, self.shift)
        except grids.NotANumber as it:
            raise Refused(f"W1: {it}") from None
        except binary.NoText as it:
            reason = self.reason_of_form(it.form)
        if self.means.invalid != "mend":
            raise Refused(reason)
        return self.flat_text(geometry, record, (self.column(at), reason))

    def flat_text(self, geometry: Any, record: Record, reason: tuple[str, str]) -> str:
        """Returns the text of what a geometry is without its curves and empty elements. Refused for the reason if that has none either."""
        try:
            found = binary.text(reading.flat(geometry), self.means.grid, self.shift, drops_empty=True)
        except binary.NoText:
            raise Refused(reason[1]) from None
        except grids.NotANumber as it:
            record.reasons += (reason,)
            raise Refused(f"W1: {it}") from None
        record.reasons, record.done = (*record.reasons, reason), MENDED
        return found

    def reason_of_form(self, form: str) -> str:
        """Returns sfq's reason against the beginning of a text, and the words of it."""
        if form not in self.forms:
            self.forms[form] = f"{self.means.checker.reason(form)}: {form.rstrip(' (')}"
        return self.forms[form]

    def write(self, batch: list[Record]) -> None:
        """Checks records, and writes them or what they are refused for."""
        asked = [(record, at) for record in batch if record.fields for at, it in enumerate(record.texts) if it]
        reasons = self.means.checker.reasons([record.texts[at] or "" for record, at in asked])
        for (record, at), reason in zip(asked, reasons):
            if reason:
                self.refuse(record, at, reason)
        for record in batch:
            rows = self.lines(record) if record.fields else None
            if record.reasons:
                self.note(record, left_out.DONE if rows is None else record.done)
            if rows is not None:
                self.table.writelines(rows)
                self.rows += len(rows)
                self.kept += 1
                if self.members is not None:
                    self.compare(record, self.members)

    def compare(self, record: Record, members: list[list[relating.Member]]) -> None:
        """Takes the geometries of a record that is kept, to compare their relations, if they are those of the source on the grid."""
        if record.reasons or record.parts:
            self.uncompared += 1
            return
        for its, source, text in zip(members, record.sources, record.texts):
            if source and text and not text.endswith("EMPTY"):
                its.append(relating.Member(record.fields[0], source[0], checking.Asked(text), source[1], self.means.grid))
        self.need_few()

    def need_few(self) -> None:
        """Has no relations be compared of a table of too many rows."""
        if self.kept > rules.MOST_ROWS:
            self.members = None

    def refuse(self, record: Record, at: int, reason: str) -> None:
        """Mends a geometry that sfq refuses where that is wanted and can be done; else refuses the record."""
        if self.means.parts and reason[:2] == "W4" and len(self.takes) == 1:
            self.part(record, reason)
            return
        broken = left_out.BROKEN if reason[0] == "V" and is_broken(self.means.checker, record.sources[at]) else ""
        self.broken += bool(broken)
        if reason[0] == "V" and self.means.invalid in SETTLES and self.settles(record, at, reason, broken):
            return
        if self.means.invalid == "mend" and reason[0] == "V":
            text, behind = self.mended(record.texts[at] or "")
            found = self.cut(text) if text and behind else None
            if text is None or (behind and found is None):
                record.fields = []
            elif found:
                self.take_parts(record, found)
                behind = ""
            else:
                record.texts[at] = text
            reason += behind
        else:
            record.fields = []
        record.done = MENDED
        if not record.fields:
            self.invalid += reason[0] == "V"
            reason += broken
        record.reasons += ((self.column(at), reason),)

    def settles(self, record: Record, at: int, reason: str, broken: str) -> bool:
        """Whether a geometry that is valid in the source, as GEOS sees it, is cut where its rings touch, or rounded anew, without further faults."""
        source, text = record.sources[at], record.texts[at] or ""
        if source is None or not snapping.is_valid(self.means.modules, source[0]):
            return False
        found = self.cut(text) if reason[:2] in touching.CODES else None
        if found is None:
            reducer = self.means.reducer()
            made = snapping.snapped(reducer, source[0], self.means.grid) if reducer else None
            self.unsnapped += reducer is None
            if made is None:
                return False
            further = self.means.checker.reasons([made])[0]
            found = self.cut(made) if further else None
            if further and found is None:
                return False
            record.texts[at] = made
            record.reasons += ((self.column(at), reason + broken),)
        if found:
            self.take_parts(record, found)
        return True

    def cut(self, text: str) -> Optional[parting.Parted]:
        """Returns the parts of an area whose rings touch in points; None where it has none, and in a table of several columns of geometries."""
        if len(self.takes) != 1 or not snapping.is_valid(self.means.modules, text):
            return None
        try:
            return touching.parted(text, self.means.checker.reasons)
        except parting.Undivided:
            return None

    def take_parts(self, record: Record, found: parting.Parted) -> None:
        """Has a record be several rows, since its rings touch."""
        if not self.has_parts:
            self.begin_parts()
        record.parts = found.texts
        self.parted, self.parts, self.touching = self.parted + 1, self.parts + len(found.texts), self.touching + 1

    def begin_parts(self) -> None:
        """Gives the table the columns of parts: each row so far is one record. HasParts where one gets too long, so that all are read anew."""
        self.has_parts, self.columns = True, columns(self.layer, self.key, self.means.steps, True)
        number, size, is_open = 0, 0, False
        with tempfile.TemporaryFile() as spool:
            self.table.seek(0)
            self.table.readline()
            for line in self.table:
                if not is_open:
                    number += 1
                    size = spool.write(b"%d,%s," % (number, line.partition(b",")[0]))
                size += spool.write(line)
                if size > rules.MOST_OF_RECORD:
                    raise HasParts()
                # A line end may be within quotes.
                is_open ^= line.count(b'"') % 2 == 1
            spool.seek(0)
            self.table.seek(0)
            self.table.truncate()
            self.table.write(self.header())
            shutil.copyfileobj(spool, self.table)

    def header(self) -> bytes:
        """Returns the first line of the table."""
        return ",".join(it.name for it in self.columns).encode() + b"\n"

    def mended(self, text: str) -> tuple[Optional[str], str]:
        """Returns what make-valid makes of a text, on the grid, and what is said of it where that isn't valid there; None where it makes nothing."""
        made, behind = None, ""
        for _ in range(TIMES):
            further = reading.mended(self.means.modules, text)
            if further is None:
                return made, behind or "; make-valid leaves nothing of it"
            made = text = further
            reason = self.means.checker.reasons([made])[0]
            if reason is None:
                return made, ""
            behind = f"; after make-valid {reason}"
        return made, behind

    def part(self, record: Record, reason: str) -> None:
        """Parts a record, or refuses it."""
        text = record.texts[0] or ""
        found, behind = self.parts_of(text)
        if found is None and self.means.invalid == "mend":
            made = reading.mended(self.means.modules, text)
            found, further = self.parts_of(made) if made else (None, "; make-valid leaves nothing of it")
            behind = f"{behind}{further}"
        if behind:
            record.reasons, record.done = (*record.reasons, ("", reason + behind)), MENDED
        if found is None:
            record.fields = []
            return
        if not self.has_parts:
            self.begin_parts()
        record.parts = found.texts
        self.parted, self.parts = self.parted + 1, self.parts + len(found.texts)
        self.put_in, self.bend = self.put_in + found.put_in, max(self.bend, found.greatest)

    def parts_of(self, text: str) -> tuple[Optional[parting.Parted], str]:
        """Returns the parts of a text, each valid; else None and what is said of it."""
        behind = ""
        for choice in range(TIMES):
            try:
                found = parting.parted(self.means.modules.ogr, text, choice)
            except parting.Undivided as it:
                return None, f"; it can't be parted: {it}"
            refused = [it for it in self.means.checker.reasons(found.texts) if it]
            if not refused:
                return found, ""
            behind = f"; one of its {len(found.texts):,} parts {refused[0]}"
        return None, behind

    def lines(self, record: Record) -> Optional[list[bytes]]:
        """Returns the lines of a record, one unless it is parted; None where it is refused."""
        try:
            "".join(record.fields).encode()
        except UnicodeEncodeError:
            record.reasons, record.done = (*record.reasons, ("", "L4: a text isn't UTF-8")), MENDED
            if self.means.invalid != "mend":
                return None
            record.fields = [it.encode("utf-8", "replace").decode() for it in record.fields]
        found = []
        rows: list[list[Optional[str]]] = [[it] for it in record.parts] or [record.texts]
        for number, texts in enumerate(rows):
            line = self.line(record, [str(self.rows + number + 1), record.fields[0]] if self.has_parts else [], texts)
            if line is None:
                return None
            found.append(line)
        return found

    def line(self, record: Record, first: list[str], texts: Sequence[Optional[str]]) -> Optional[bytes]:
        """Returns a line of a record behind its first fields, or None where it is refused."""
        fields = first + record.fields
        for text in texts:
            fields.append("" if text is None else f'"{text}"' if "," in text else text)
        found = (",".join(fields) + "\n").encode()
        if len(found) > rules.MOST_BYTES:
            reason = rules.too_long(found, [it.name for it in self.columns], fields)
            if reason:
                record.reasons += (("", reason),)
                return None
        for words, text in zip(self.words, texts):
            if text is not None:
                words.add(text.partition("(")[0])
        return found

    def note(self, record: Record, done: str) -> None:
        """Lists a record that is left out or was mended. Stopped where that ends the import."""
        for column, reason in record.reasons:
            if self.means.invalid == "stop":
                raise Stopped(f"{self.layer.label} record {record.number} (FID {record.fid}): {column}{reason}", DATA)
            fields = [self.layer.name, str(record.number), str(record.fid), column + reason, done, self.name]
            fields += left_out.described(self.means.modules, record.sources, reason, self.means.grid)
            self.left_out.write(",".join(map(rules.quoted, fields)).encode("utf-8", "replace") + b"\n")
        self.done[done] += 1
        for it in {kind(reason) for _, reason in record.reasons}:
            self.counts[done, it] += 1
        if done == left_out.DONE and self.means.rejects:
            reason = record.reasons[0][1]
            shape = next((it[0] for it in record.sources if it), None)
            self.rejected.append(rejects.Rejected(
                self.layer.name, record.number, record.fid, reason, left_out.place(reason, self.means.grid), shape))


def is_broken(checker: checking.Checker, source: Optional[tuple[bytes, Any]]) -> bool:
    """Whether a geometry that is refused on a grid is valid on one of its own, whose step is the finest that reaches it."""
    if source is None:
        return False
    try:
        grid = proposing.proposed(proposing.Extent(*source[1]), None)
        return checker.reasons([binary.text(source[0], grid, grids.Shift())])[0] is None
    except (ValueError, OverflowError):
        return False


def kind(reason: str) -> str:
    """Returns what a reason has in common with others of its kind, and what it means."""
    code, text = re.split(r"\W", reason, maxsplit=1)[0], VALUE.sub("", reason.partition(": ")[2])
    broken = left_out.BROKEN if reason.endswith(left_out.BROKEN) else ""
    return f"{code}: {MEANINGS[code] if code[0] == 'V' or code in ('W3', 'W4') else text}{broken}"


def columns(layer: reading.Layer, key: Key, steps: Mapping[str, str], has_parts: bool) -> list[rules.Column]:
    """Returns the columns of a table: the key, those of the layer in their order, and the geometries.

    Where a record may be several rows the key is a number of the row, and the record's own key is in a column `whole`, and in its own.
    """
    names, fid = rules.Names(), layer.layer.GetFIDColumn()
    found = [rules.Column(names.of(it, it), "", "INTEGER") for it in ("part", "whole") if has_parts]
    if key.source == "#":
        found.append(rules.Column(names.of("id", "id"), "", "INTEGER"))
    elif not key.source:
        found.append(rules.Column(names.of(fid or "fid", "fid"), fid, "INTEGER"))
    else:
        found.append(rules.Column(names.of(key.source, "key"), key.source, "INTEGER"))
    if key.source and fid:
        found.append(rules.Column(names.of(fid, "fid"), fid, "INTEGER"))
    for _, name in layer.columns():
        if name != key.source:
            own = "" if name in steps else layer.steps.get(name, "")
            step = steps.get(name, own)
            kind = "INTEGER" if step or layer.is_whole(name) else "TEXT"
            found.append(rules.Column(names.of(name, "field"), name, kind, not step and layer.is_real(name), step, bool(own)))
    for it in layer.shapes:
        found.append(rules.Column(names.of(it.name or "geom", "geom"), it.name, "GEOMETRY"))
    return found


def type_of(words: set[str], said: str) -> str:
    """Returns the type of a geometry column by the types that are in it; `said` where it has none."""
    words = {it.removesuffix(" EMPTY") for it in words}
    if not words:
        return said
    of_many = {it if it.startswith("MULTI") else f"MULTI{it}" for it in words}
    return next(iter(words if len(words) == 1 else of_many)) if len(of_many) == 1 else "GEOMETRY"


def written_as_multi(path: str, places: set[int], words: set[str]) -> None:
    """Writes a table anew, with each geometry in these columns as one of its MULTI type. `words` are those of the types that are there."""
    with open(path, "rb") as old, open(f"{path}.new", "wb") as new:
        last = old.readline().count(b",")
        old.seek(0)
        if places == {last} and words <= QUOTED_TYPES:
            while lines := old.read(AT_ONCE):
                new.write(LAST_SHAPE.sub(rb',"MULTI\1(\2)"', lines + old.readline()))
        else:
            written_singly(old, new, places)
    os.replace(f"{path}.new", path)


def written_singly(old: IO[bytes], new: IO[bytes], places: set[int]) -> None:
    """Writes a table anew record by record, as `written_as_multi` does."""
    csv.field_size_limit(sys.maxsize)
    for row in csv.reader(io.TextIOWrapper(old, newline="", encoding="utf-8")):
        for at in places:
            row[at] = binary.as_multi(row[at]) if row[at] and "(" in row[at] or row[at].endswith(" EMPTY") else row[at]
        new.write((",".join(map(rules.quoted, row)) + "\n").encode())
