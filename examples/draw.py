#!/usr/bin/env python3
"""Draws what `sfq why` shows as an SVG, on standard output.

    sfq why FIRST SECOND | python3 examples/draw.py FIRST SECOND > picture.svg
    sfq why FIRST | python3 examples/draw.py FIRST > picture.svg
    sfq run SCHEMA DIR QUERY | python3 examples/draw.py --rows DIR/TABLE.csv > picture.svg
    python3 examples/draw.py --map DIR/TABLE.csv=COLOUR .. > picture.svg

The first geometry is blue, the second orange. Marks show where the two meet: a dot for a point, a thick line for a stretch, a
ring around one of its points for an area. The place of a fault is red. It draws all geometries of a table in grey, and in blue
those of the rows whose key is in the answer's first column. A map has all geometries of some tables, the first table at the
bottom, each in its colour (a name or #RRGGBB; grey without one), and a key of the tables. Python's standard library is enough.
"""
import csv
import os
import re
import runpy
import sys
import types
from xml.sax.saxutils import escape

# Where the module that draws is: in a checkout, and in a prefix beside share/doc/sfq.
HERE = os.path.dirname(os.path.realpath(__file__))
PLACES = [f"{HERE}/{it}/sfq_audit/drawing.py" for it in ("../bindings/python", "../../../sfq")]
drawn = types.SimpleNamespace(**runpy.run_path(next(it for it in PLACES if os.path.isfile(it))))
GEOMETRIC = re.compile(r"\s*(?:MULTI)?(?:POINT|LINESTRING|POLYGON)\b", re.IGNORECASE)
TABLE = re.compile(r"(.*?)(?:=(#[0-9a-fA-F]{6}|[a-z]+))?")
# The key of a map: how many tables are in a row of it, and how far apart rows are.
KEY_COLUMNS, KEY_STEP = 4, 18


def geometries_in(path, key_name):
    """Returns the key and the geometry of each row of a table, whose first column with a geometry is taken."""
    with open(path, newline="") as file:
        rows = [{name.lower(): field for name, field in row.items()} for row in csv.DictReader(file)]
    column = next((name for row in rows for name, field in row.items() if GEOMETRIC.match(field)), None)
    return [(row[key_name].strip(), row[column]) for row in rows if column is not None]


def rows_drawn(path, answer):
    """Returns the SVG of a table, with the rows of an answer in a colour of their own."""
    (head, *_), *records = csv.reader(answer)
    keys = {record[0] for record in records}
    found = geometries_in(path, head.rpartition(".")[2].lower())
    page = drawn.Page([p for _, text in found for part in drawn.parts_of(text) for p in part])
    body = []
    for kind, colour in (("other", drawn.OTHER), ("row", drawn.COLOURS[0])):
        for key, text in found:
            if (key in keys) == (kind == "row") and drawn.parts_of(text):
                body += [f'<g class="{kind}">', *drawn.shape(page, text, "shape", colour), "</g>"]
    return drawn.svg(f"rows of {path}", body)


def texts_in(path):
    """Returns all geometries of a table, of each of its columns."""
    with open(path, newline="", encoding="utf-8") as file:
        return [field for record in csv.reader(file) for field in record if GEOMETRIC.match(field)]


def key_of_map(names, top):
    """Returns the drawing of the key of a map: each table's colour and name."""
    body = []
    for at, (name, colour) in enumerate(names):
        x, y = drawn.MARGIN + at % KEY_COLUMNS * (drawn.SIZE - 2 * drawn.MARGIN) // KEY_COLUMNS, top + at // KEY_COLUMNS * KEY_STEP
        body += [
            f'<rect class="key" x="{x}" y="{y:.2f}" width="10" height="10" fill="{colour}"/>',
            f'<text x="{x + 14}" y="{y + 9:.2f}" font-family="sans-serif" font-size="11" fill="{drawn.MARK}">{escape(name)}</text>',
        ]
    return body


def map_drawn(words):
    """Returns the SVG of a map of tables, each named by its file, with `=COLOUR` behind it or not."""
    tables = [(path, colour or drawn.OTHER, texts_in(path)) for path, colour in (TABLE.fullmatch(it).groups() for it in words)]
    page = drawn.Page([p for _, _, texts in tables for text in texts for part in drawn.parts_of(text) for p in part])
    names = [(os.path.splitext(os.path.basename(path))[0], colour) for path, colour, _ in tables]
    body = []
    for _, colour, texts in tables:
        body += ['<g class="table">', *(line for text in texts for line in drawn.shape(page, text, "shape", colour)), "</g>"]
    height = page.height + -(-len(tables) // KEY_COLUMNS) * KEY_STEP + drawn.MARGIN / 2
    return drawn.svg("map of " + ", ".join(it for it, _ in names), body + key_of_map(names, page.height), height)


def main(words):
    if words[:1] == ["--map"] and len(words) > 1:
        sys.stdout.write(map_drawn(words[1:]))
        return 0
    if not 1 <= len(words) <= 2 or words[0] in ("-h", "--help") or words in (["--rows"], ["--map"]):
        print(__doc__.strip(), file=sys.stderr)
        return 2
    lines = sys.stdin.read().splitlines()
    sys.stdout.write(rows_drawn(words[1], lines) if words[0] == "--rows" else drawn.drawing(words, lines))
    return 0


if __name__ == "__main__":
    sys.exit(main(sys.argv[1:]))
