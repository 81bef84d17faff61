"""Passes of an import that read their records in batches of columns. None of it is proved.

They write what passes over single records write. A record that has something out of the usual becomes a single record: a geometry that
isn't valid on the grid, or that has another form than sfq's, and one that becomes several rows.
"""
from __future__ import annotations

from typing import TYPE_CHECKING, Any, Iterator, NamedTuple, Optional, Sequence

from ..geometry import binary, grids
from ..layers import batches, relating
from ..tables import rules
from . import checking

if TYPE_CHECKING:
    from .passes import Pass

# A line that is shorter has no field that is too long, in whatever letters.
SHORT = rules.MOST_BYTES // 4


class Shapes(NamedTuple):
    """The geometries of a batch on the grid: the text of each, None where none is, or where it is read alone; and their boxes, if these are
    asked."""

    texts: list[Optional[str]]
    alone: set[int]
    sources: Sequence[Any]
    boxes: Sequence[Any]
    # Whether each is a point with a position.
    are_points: bool = False


class Batched:
    """A pass over a layer in batches of columns."""

    def __init__(self, found: Pass) -> None:
        """NotInColumns where the records have to be read one by one."""
        self.found, self.layer, self.means = found, found.layer, found.means
        places = [at for at, name in self.layer.columns() if name != found.key.source]
        self.names = {at: self.layer.fields[at].GetName() for at in places}
        self.key_place = self.layer.described.GetFieldIndex(found.key.source) if found.key.source not in ("", "#") else None
        if any(name in self.means.steps for name in self.names.values()):
            raise batches.NotInColumns("a column gets steps that were given")
        self.batches = self.layer.batches(sorted({*places, *([] if self.key_place is None else [self.key_place])}))

    def run(self) -> Iterator[int]:
        """Takes all records, and yields how many there are so far."""
        with self.batches as its:
            for batch in its:
                self.take(batch)
                yield self.found.records

    # ---- fields ----

    def keys(self, batch: batches.Batch, fids: list[int]) -> list[str]:
        """Returns the keys of records. NotInColumns where one is missing."""
        found = self.found
        if found.key.source == "#":
            return [str(it) for it in range(found.records + 1, found.records + batch.records + 1)]
        if self.key_place is None:
            return list(map(str, fids))
        keys = batch.fields[self.key_place].wholes()
        if None in keys:
            raise batches.NotInColumns("a record has no key")
        return list(map(str, keys))

    def fields(self, batch: batches.Batch, fids: list[int]) -> list[list[str]]:
        """Returns the columns behind the key as CSV has them, and counts empty texts."""
        found, empty = [], []
        if self.found.key.source and self.layer.layer.GetFIDColumn():
            found.append(list(map(str, fids)))
        for at, name in self.names.items():
            values, scale = batch.fields[at], self.found.scales.get(name)
            if values.kind == "u":
                texts, places = values.texts()
                empty.append((name, places))
            elif values.kind == "g" and scale is None:
                real = rules.real
                texts = values.spelled([real(it) for it in values.numbers().tolist()])
            elif scale is not None:
                # Each number is a whole one of its steps, of at most 15 digits.
                texts = [str(round(it)) if it is not None else "" for it in values.with_none((values.numbers() * 10**scale.axis.digits).tolist())]
            else:
                texts = values.spelled(list(map(str, values.numbers().tolist())))
            found.append(texts)
        batches.count_empty(empty, self.found.empty)
        return found

    # ---- geometries ----

    def shapes(self, values: batches.Values) -> Shapes:
        """Returns the geometries of a batch on the grid, and counts how far they moved."""
        grid, numpy = self.means.grid, values.numpy
        apart = batches.Apart(values, grid.numbers)
        is_there = numpy.ones(values.count, dtype=bool) if values.is_there is None else values.is_there
        are_plain = apart.are_there.copy()
        ends = apart.ends()
        if len(apart.steps) and apart.steps.max() > grids.MOST:
            # A position past the limit isn't counted as moved.
            past = numpy.flatnonzero((apart.steps > grids.MOST).any(axis=1))
            are_plain[numpy.searchsorted(ends[:, 0], past, side="right")] = False
        # Geometries of several elements of which one is empty.
        lacking = numpy.searchsorted(ends[:, 2], numpy.flatnonzero(apart.elements == 0), side="right")
        are_plain[lacking[apart.types[lacking] > 3]] = False
        texts, merged, kept = self.texts(apart, are_plain, ends)
        grids.measure_all(apart.positions[kept], apart.steps[kept], grid, self.found.shift, merged)
        sources, boxes = boxes_of(apart, numpy) if self.found.members is not None else ([], [])
        alone = set(numpy.flatnonzero(is_there & ~are_plain).tolist())
        return Shapes(texts, alone, sources, boxes, not alone and len(texts) == len(apart.positions) and bool((apart.types == 1).all()))

    def texts(self, apart: batches.Apart, are_plain: Any, ends: Any) -> tuple[list[Optional[str]], int, Any]:
        """Returns the texts of plain geometries, None of the others, how many positions were merged, and which positions are those of plain
        geometries."""
        numpy, steps = apart.numpy, apart.steps
        texts: list[Optional[str]] = [None] * len(are_plain)
        kept = numpy.repeat(are_plain, apart.counts[:, 0])
        if (apart.counts == 1).all() and (apart.types == 1).all():
            whole, starts = grids.spelled_all(steps)
            places = starts.tolist()
            return [f"POINT({whole[a:b - 1]})" for a, b in zip(places, places[1:])], 0, kept
        # Which positions are others than the ones before them on their lines, and how many these are up to each place.
        differ = numpy.ones(len(steps), dtype=bool)
        differ[1:] = (steps[1:, 0] != steps[:-1, 0]) | (steps[1:, 1] != steps[:-1, 1])
        line_ends = apart.lines.astype("i8").cumsum()
        starts = line_ends - apart.lines.astype("i8")
        differ[starts[starts < len(steps)]] = True
        before = numpy.concatenate([[0], differ.cumsum()])
        whole, places = grids.spelled_all(steps[differ])
        from_, to, elements = places[before[starts]].tolist(), places[before[line_ends]].tolist(), apart.elements.tolist()
        merged = int((kept & ~differ).sum())
        wholes = list(zip(apart.types.tolist(), apart.counts.tolist(), ends.tolist()))
        for at in numpy.flatnonzero(are_plain).tolist():
            kind, (positions, lines, parts), (last, last_line, last_part) = wholes[at]
            if kind == 4 and positions:
                each = list(map("%d %d".__mod__, map(tuple, steps[last - positions : last].tolist())))
                unique = dict.fromkeys(each)
                merged += len(each) - len(unique) - int((~differ[last - positions : last]).sum())
                texts[at] = f"MULTIPOINT(({'),('.join(unique)}))"
                continue
            its = [f"({whole[a:b - 1]})" if a < b else "()" for a, b in zip(from_[last_line - lines : last_line], to[last_line - lines : last_line])]
            texts[at] = f"POINT{its[0]}" if kind == 1 and its else binary.text_of(binary.WORDS[kind], its, elements[last_part - parts : last_part])
        return texts, merged, kept

    # ---- records ----

    def take(self, batch: batches.Batch) -> None:
        """Takes the records of a batch."""
        found, fids = self.found, batch.fids.numbers().tolist()
        found.need_ascending(fids)
        keys = self.keys(batch, fids)
        columns = [keys, *self.fields(batch, fids)]
        shapes = self.shapes(batch.shapes) if batch.shapes is not None else NO_SHAPES
        rows, done = list(zip(*columns)), 0
        lines = self.lines(rows, shapes)
        faulty = {at for at, reason in self.reasons(shapes.texts) if reason} if not shapes.are_points else set()
        alone = shapes.alone | faulty | {at for at, it in enumerate(lines) if len(it) > SHORT}
        for at in (*sorted(alone), batch.records):
            self.write(batch, shapes, rows[done:at], lines[done:at], done)
            if at < batch.records:
                self.take_alone(batch, shapes, at, fids[at], list(rows[at]))
            done = at + 1

    def reasons(self, texts: Sequence[Optional[str]]) -> Iterator[tuple[int, Optional[str]]]:
        """Yields the place of each text that isn't a point's within the limit, and why it is refused: such a point is valid."""
        places = [at for at, it in enumerate(texts) if it and not it.startswith("POINT")]
        yield from zip(places, self.means.checker.reasons([texts[at] or "" for at in places]))

    def lines(self, rows: Sequence[tuple[str, ...]], shapes: Shapes) -> list[str]:
        """Returns the line of each record, whatever becomes of it."""
        if not self.layer.shapes:
            return [f"{','.join(row)}\n" for row in rows]
        fields = shapes.texts if shapes.are_points else ["" if it is None else f'"{it}"' if "," in it else it for it in shapes.texts]
        return [f"{','.join(row)},{text}\n" for row, text in zip(rows, fields)]

    def write(self, batch: batches.Batch, shapes: Shapes, rows: Sequence[tuple[str, ...]], lines: Sequence[str], first: int) -> None:
        """Writes records that are one row each, from a place of the batch on."""
        found, texts = self.found, shapes.texts[first : first + len(rows)]
        if found.has_parts:
            # A number of the row, and the key of the record.
            lines = [f"{found.rows + at},{row[0]},{line}" for at, (row, line) in enumerate(zip(rows, lines), 1)]
        found.table.write("".join(lines).encode())
        found.records, found.rows, found.kept = found.records + len(rows), found.rows + len(rows), found.kept + len(rows)
        for words in found.words:
            words.update(["POINT"] if shapes.are_points and texts else {it.partition("(")[0] for it in texts if it is not None})
        if found.members is not None and batch.shapes is not None:
            for at, row in enumerate(rows, first):
                text = shapes.texts[at]
                if text and not text.endswith("EMPTY"):
                    given = batch.shapes.bytes_at(at) or b""
                    found.members[0].append(relating.Member(row[0], given, checking.Asked(text), shapes.sources[at], self.means.grid, shapes.boxes[at]))
        found.need_few()

    def take_alone(self, batch: batches.Batch, shapes: Shapes, at: int, fid: int, fields: list[str]) -> None:
        """Takes a record by itself."""
        found = self.found
        found.records += 1
        record = found.new_record(fid, fields)
        given = batch.shapes.bytes_at(at) if batch.shapes is not None else None
        geometry = batches.geometry_of(self.means.modules.ogr, given) if given is not None else None
        if geometry is not None and shapes.texts[at] is not None:
            # Its positions are counted.
            record.texts, record.sources = [shapes.texts[at]], [(given or b"", geometry.GetEnvelope())]
        elif self.layer.shapes:
            found.take_shape(record, 0, lambda: geometry)
        found.write([record])


# What a layer without geometries has of them.
NO_SHAPES = Shapes([], set(), [], [])


def boxes_of(apart: batches.Apart, numpy: Any) -> tuple[list[Any], list[Any]]:
    """Returns the least and the greatest x, and the least and the greatest y, of the positions of each geometry and of their steps; None of
    one that has no position."""
    counts = apart.counts[:, 0]
    places = numpy.flatnonzero(counts)
    starts = (apart.ends()[:, 0] - counts)[places]
    found: list[list[Any]] = []
    for numbers in (apart.positions, apart.steps):
        boxes: list[Any] = [None] * len(counts)
        if len(places):
            ends = (of.reduceat(numbers[:, axis], starts).tolist() for axis in (0, 1) for of in (numpy.minimum, numpy.maximum))
            for at, box in zip(places.tolist(), zip(*ends)):
                boxes[at] = box
        found.append(boxes)
    return found[0], found[1]
