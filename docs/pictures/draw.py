#!/usr/bin/env python3
"""Draws the pictures of the documents: two geometries on the grid, and beside them their DE-9IM matrix; the map of
the land register of examples/parcels, from its CSV files; and cells of a grid that is split.

Run it in this folder without arguments. It writes one SVG for each entry of PICTURES and for each pair of ../WRONG-ELSEWHERE.md,
parcels.svg, cells.svg and, from the table of ../DATA.md, steps.svg, the same bytes each time. The matrices are those of the worked rows and of that page; the script
computes none.
"""

import csv
import re

UNIT = 44
MARGIN = 26
CELL = 46
FIRST = "#1f5fa8"
SECOND = "#c0561f"

PICTURES = {
    "touching-corner": ("LINESTRING(-2 2,2 -2)", "POLYGON((0 0,4 0,4 4,0 4,0 0))", "F01FF0212"),
    "shared-edge": ("POLYGON((0 0,4 0,4 4,0 4,0 0))", "POLYGON((4 0,8 0,8 4,4 4,4 0))", "FF2F11212"),
    "line-across-a-hole": (
        "LINESTRING(-1 5,11 5)",
        "POLYGON((0 0,10 0,10 10,0 10,0 0),(4 4,6 4,6 6,4 6,4 4))",
        "101FF0212",
    ),
}
PAIR = re.compile(r"^\| (\d+) \| `(.*?)` \| `(.*?)` \|.*\| `([F012]{9})`[^|]*\|$", re.M)


def parts(text):
    """The lists of positions of a text: of each innermost pair of parentheses one."""
    lists = []
    for inner in re.findall(r"\(([^()]*)\)", text):
        lists.append([tuple(int(n) for n in position.split()) for position in inner.split(",")])
    return lists


class Sheet:
    """A drawing in grid steps, y upwards."""

    def __init__(self, positions):
        self.left = min(x for x, _ in positions) - 1
        self.right = max(x for x, _ in positions) + 1
        self.bottom = min(y for _, y in positions) - 1
        self.top = max(y for _, y in positions) + 1
        longest = max(self.right - self.left, self.top - self.bottom)
        self.unit = min(UNIT, 420 // longest)
        self.lines = []

    def at(self, position):
        x, y = position
        return MARGIN + (x - self.left) * self.unit, MARGIN + (self.top - y) * self.unit

    def width(self):
        return 2 * MARGIN + (self.right - self.left) * self.unit

    def height(self):
        return 2 * MARGIN + (self.top - self.bottom) * self.unit

    def grid(self):
        if self.unit < 8:
            return
        for x in range(self.left, self.right + 1):
            for y in range(self.bottom, self.top + 1):
                cx, cy = self.at((x, y))
                self.lines.append(f'<circle cx="{cx}" cy="{cy}" r="1.2" fill="#999"/>')

    def geometry(self, text, colour, width):
        path = ""
        for positions in parts(text):
            spots = [self.at(p) for p in positions]
            path += "M" + " L".join(f"{x} {y}" for x, y in spots) + (" Z " if text.startswith(("POLYGON", "MULTIPOLYGON")) else " ")
        fill = colour if text.startswith(("POLYGON", "MULTIPOLYGON")) else "none"
        self.lines.append(
            f'<path d="{path.strip()}" fill="{fill}" fill-opacity="0.22" fill-rule="evenodd" stroke="{colour}" stroke-width="{width}"/>'
        )

    def matrix(self, text, left, top):
        names = ["I", "B", "E"]
        for i, name in enumerate(names):
            self.lines.append(label(left + (i + 1.5) * CELL, top + CELL / 2, name, SECOND))
            self.lines.append(label(left + CELL / 2, top + (i + 1.5) * CELL, name, FIRST))
        for i in range(9):
            x, y = left + (i % 3 + 1) * CELL, top + (i // 3 + 1) * CELL
            self.lines.append(f'<rect x="{x}" y="{y}" width="{CELL}" height="{CELL}" fill="none" stroke="#666"/>')
            self.lines.append(label(x + CELL / 2, y + CELL / 2, text[i], "#222"))


def label(x, y, text, colour):
    return (
        f'<text x="{x:g}" y="{y:g}" fill="{colour}" font-family="sans-serif" font-size="18" '
        f'text-anchor="middle" dominant-baseline="central">{text}</text>'
    )


def draw(name, first, second, matrix):
    sheet = Sheet([p for text in (first, second) for positions in parts(text) for p in positions])
    sheet.grid()
    sheet.geometry(second, SECOND, 6)
    sheet.geometry(first, FIRST, 2.5)
    left = sheet.width()
    height = max(sheet.height(), 4 * CELL + 2 * MARGIN)
    sheet.matrix(matrix, left, (height - 4 * CELL) / 2)
    width = left + 4 * CELL + MARGIN
    body = "\n".join(sheet.lines)
    with open(f"{name}.svg", "w", encoding="utf-8") as file:
        file.write(
            f'<svg xmlns="http://www.w3.org/2000/svg" viewBox="0 0 {width:g} {height:g}" width="{width:g}" height="{height:g}">\n'
            f"<title>{first} and {second}: {matrix}</title>\n"
            f'<rect width="100%" height="100%" fill="#fff"/>\n{body}\n</svg>\n'
        )


REGISTER = "../../examples/parcels"
MAP_UNIT = 30
# How each table of the register is drawn: fill, stroke, width of the stroke.
STYLES = {
    "parcel": ("#9db87a", "#4c6b2f", 1.5),
    "building": ("#b5573c", "#7a2f1b", 1.2),
    "water": ("none", "#3f86c6", 3),
    "path": ("none", "#8a6d3b", 2),
    "well": ("#1f3f8a", "#fff", 1),
}
CLAIM = "109"
# Where the number of a parcel is, in tenths of a step; the others have theirs in the middle of their positions.
NUMBERS = {
    "101": (8, 34),
    "102": (95, 5),
    "104": (11, 71),
    "105": (28, 114),
    "106": (127, 64),
    "107": (128, 104),
    "108": (175, 55),
    "109": (72, 60),
    "110": (168, 107),
}


def rows_of(table):
    """The rows of a table that have a geometry with positions, by key."""
    with open(f"{REGISTER}/{table}.csv", newline="", encoding="utf-8") as file:
        rows = [row for row in csv.DictReader(file) if parts(row["geom"])]
    return sorted(rows, key=lambda row: int(row["id"]))


def shape(sheet, table, row):
    """The element that draws a row."""
    fill, stroke, width = STYLES[table]
    lists = [[sheet.at(p) for p in positions] for positions in parts(row["geom"])]
    if table == "well":
        (x, y), = lists[0]
        return f'<circle cx="{x}" cy="{y}" r="4" fill="{fill}" stroke="{stroke}" stroke-width="{width}"/>'
    is_area = fill != "none"
    path = " ".join("M" + " L".join(f"{x} {y}" for x, y in spots) + (" Z" if is_area else "") for spots in lists)
    dashes = ' stroke-dasharray="6 4"' if table == "parcel" and row["id"] == CLAIM else ""
    if dashes:
        fill = "none"
    return (
        f'<path d="{path}" fill="{fill}" fill-opacity="{0.35 if table == "parcel" else 0.8}" fill-rule="evenodd" '
        f'stroke="{stroke}" stroke-width="{width}"{dashes}/>'
    )


def number(sheet, row):
    """The number of a parcel."""
    listed = [p for positions in parts(row["geom"]) for p in positions[:-1]]
    middle = sum(x for x, _ in listed) * 10 / len(listed), sum(y for _, y in listed) * 10 / len(listed)
    x, y = NUMBERS.get(row["id"], middle)
    cx, cy = MARGIN + (x / 10 - sheet.left) * sheet.unit, MARGIN + (sheet.top - y / 10) * sheet.unit
    return label(cx, cy, row["id"], "#2c3f1a").replace('font-size="18"', 'font-size="12"')


def draw_register():
    tables = {table: rows_of(table) for table in STYLES}
    sheet = Sheet([p for rows in tables.values() for row in rows for positions in parts(row["geom"]) for p in positions])
    sheet.unit = MAP_UNIT
    sheet.grid()
    for table, rows in tables.items():
        sheet.lines += [shape(sheet, table, row) for row in rows]
    # The Glebe has the outline of the Churchyard, so one number is for both.
    sheet.lines += [number(sheet, row) for row in tables["parcel"] if row["id"] != "113"]
    width, height = sheet.width(), sheet.height()
    body = "\n".join(sheet.lines)
    with open("parcels.svg", "w", encoding="utf-8") as file:
        file.write(
            f'<svg xmlns="http://www.w3.org/2000/svg" viewBox="0 0 {width:g} {height:g}" width="{width:g}" height="{height:g}">\n'
            "<title>The land register of examples/parcels</title>\n"
            f'<rect width="100%" height="100%" fill="#fff"/>\n{body}\n</svg>\n'
        )


# Cells of a split grid, and two rectangles in them, in the picture's own units: x and y of the upper left corner, width and height.
CELLS = {"cell 1": (20, 20, 160, 180, 28, 192), "cell 2": (180, 100, 160, 100, 284, 192), "cell 3": (180, 20, 160, 80, 284, 36)}
SHAPES = {"a": (110, 60, 130, 110, FIRST, 116, 76), "b": (200, 80, 70, 60, SECOND, 256, 96)}
SAID = {
    60: "a is in cells 1, 2 and 3,", 78: "b in cells 2 and 3.", 104: "The green corner is the pair's:", 122: "greater least x, greater least y.",
    148: "So cell 2 finds the pair.", 166: "In cell 3 both have s = 1.",
}


def draw_cells():
    lines = []
    for name, (x, y, width, height, at, down) in CELLS.items():
        lines.append(f'<rect x="{x}" y="{y}" width="{width}" height="{height}" fill="none" stroke="#888" stroke-dasharray="5 4"/>')
        lines.append(f'<text x="{at}" y="{down}">{name}</text>')
    for name, (x, y, width, height, colour, at, down) in SHAPES.items():
        lines.append(f'<rect x="{x}" y="{y}" width="{width}" height="{height}" fill="{colour}22" stroke="{colour}" stroke-width="2"/>')
        lines.append(f'<text x="{at}" y="{down}">{name}</text>')
    lines.append('<circle cx="200" cy="140" r="5" fill="#2a8a4a"/>')
    lines += [f'<text x="356" y="{down}">{text}</text>' for down, text in SAID.items()]
    body = "\n".join(lines)
    with open("cells.svg", "w", encoding="utf-8") as file:
        file.write(
            '<svg xmlns="http://www.w3.org/2000/svg" viewBox="0 0 560 220" width="560" height="220">\n'
            "<title>Three cells, two rectangles, and the corner that says to which cell the pair belongs</title>\n"
            "<style>text{font:12px sans-serif;fill:#333}</style>\n"
            f'<rect width="100%" height="100%" fill="#fff"/>\n{body}\n</svg>\n'
        )


# A row of the table of steps: the step, the records refused and all, the greatest shift, and the relations changed.
STEP = re.compile(r"^ *(0\.0*[15]) +([\d,]+) of ([\d,]+) +\S+ +([\d,]+)$", re.M)
STEPS_WIDTH, STEPS_HEIGHT, STEPS_LEFT, STEPS_TOP = 560, 260, 50, 30
CURVES = ((1, FIRST, "records refused"), (3, SECOND, "relations changed"))


def draw_steps():
    with open("../DATA.md", encoding="utf-8") as file:
        rows = [(step, *(int(it.replace(",", "")) for it in more)) for step, *more in STEP.findall(file.read())]
    most = max(max(row[1], row[3]) for row in rows)
    wide, high = STEPS_WIDTH - 2 * STEPS_LEFT, STEPS_HEIGHT - 2 * STEPS_TOP

    def at(place, count):
        return STEPS_LEFT + wide * place / (len(rows) - 1), STEPS_TOP + high * (1 - count / most)

    lines = []
    for count in (0, most):
        x, y = at(0, count)
        lines.append(f'<path d="M{x:g} {y:g}h{wide:g}" stroke="#ccc" fill="none"/><text x="{x - 8:g}" y="{y + 4:g}" text-anchor="end">{count}</text>')
    for place, row in enumerate(rows):
        lines.append(f'<text x="{at(place, 0)[0]:g}" y="{STEPS_HEIGHT - 10}" text-anchor="middle">{row[0]}</text>')
    for number, (column, colour, name) in enumerate(CURVES):
        points = [at(place, row[column]) for place, row in enumerate(rows)]
        lines.append(f'<polyline points="{" ".join(f"{x:g},{y:g}" for x, y in points)}" fill="none" stroke="{colour}" stroke-width="2"/>')
        lines += [f'<circle cx="{x:g}" cy="{y:g}" r="4" fill="{colour}"/>' for x, y in points]
        lines.append(f'<text x="{STEPS_LEFT + 20}" y="{STEPS_TOP + 20 + 18 * number}" style="fill:{colour}">{name}</text>')
    body = "\n".join(lines)
    with open("steps.svg", "w", encoding="utf-8") as file:
        file.write(
            f'<svg xmlns="http://www.w3.org/2000/svg" viewBox="0 0 {STEPS_WIDTH} {STEPS_HEIGHT}" width="{STEPS_WIDTH}" height="{STEPS_HEIGHT}">\n'
            f"<title>Records refused and relations changed of {rows[0][2]} tracts, over the step</title>\n"
            "<style>text{font:12px sans-serif;fill:#333}</style>\n"
            f'<rect width="100%" height="100%" fill="#fff"/>\n{body}\n</svg>\n'
        )


def draw_pairs():
    with open("../WRONG-ELSEWHERE.md", encoding="utf-8") as file:
        for number, *rows in PAIR.findall(file.read()):
            draw(f"elsewhere-{number}", *rows)


for picture, rows in PICTURES.items():
    draw(picture, *rows)
draw_pairs()
draw_register()
draw_cells()
draw_steps()
