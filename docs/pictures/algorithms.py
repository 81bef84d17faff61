#!/usr/bin/env python3
"""Draws the three worked examples of ../ARCHITECTURE.md: a matrix, a plan and an index join.

Run it in this folder without arguments. It writes matrix.svg, plan.svg and index-join.svg, the same bytes each time. The plan
and the index join are those of QUERY over the land register of examples/parcels. The script computes neither the matrix nor
the plan: tests/test_algorithms.py compares what it draws with the definitions and with the program.
"""

import csv
import re
from html import escape

FIRST, SECOND, THIRD = "#1f5fa8", "#c0561f", "#2a7d4f"
INK, FAINT = "#222", "#777"
SIZE = 13
MONO = "ui-monospace,Menlo,Consolas,monospace"
REGISTER = "../../examples/parcels"

Point = tuple[float, float]
Box = tuple[int, int, int, int]


def text(at: Point, words: str, colour: str = INK, size: int = SIZE, anchor: str = "start", family: str = "sans-serif") -> str:
    """Returns a line of text, whose capitals have their middle at this height."""
    return (
        f'<text x="{at[0]:g}" y="{at[1] + 0.36 * size:g}" fill="{colour}" font-family="{family}" font-size="{size}" '
        f'text-anchor="{anchor}" xml:space="preserve">{escape(words, quote=False)}</text>'
    )


def rectangle(left: float, top: float, width: float, height: float, stroke: str, fill: str = "none", more: str = "") -> str:
    """Returns a rectangle by its upper left corner and its size; `more` are further attributes."""
    return f'<rect x="{left:g}" y="{top:g}" width="{width:g}" height="{height:g}" fill="{fill}" stroke="{stroke}"{more}/>'


def line(start: Point, end: Point, colour: str, width: float = 1.5, more: str = "") -> str:
    """Returns a straight line."""
    return f'<path d="M{start[0]:g} {start[1]:g}L{end[0]:g} {end[1]:g}" fill="none" stroke="{colour}" stroke-width="{width:g}"{more}/>'


def arrow(start: Point, end: Point, colour: str = FAINT) -> str:
    """Returns a line whose end has a head; it goes down or to the right."""
    (x, y), down = end, end[1] > start[1]
    head = f"M{x - 5:g} {y - 7:g}L{x:g} {y:g}L{x + 5:g} {y - 7:g}" if down else f"M{x - 7:g} {y - 5:g}L{x:g} {y:g}L{x - 7:g} {y + 5:g}"
    return line(start, end, colour) + f'<path d="{head}" fill="none" stroke="{colour}" stroke-width="1.5"/>'


def write(name: str, title: str, width: int, height: int, lines: list[str]) -> None:
    """Writes a picture. Its background is white, so that it can be read in a dark view too."""
    body = "\n".join(lines)
    with open(f"{name}.svg", "w", encoding="utf-8") as file:
        file.write(
            f'<svg xmlns="http://www.w3.org/2000/svg" viewBox="0 0 {width} {height}" width="{width}" height="{height}">\n'
            f"<title>{escape(title, quote=False)}</title>\n"
            f'<rect width="100%" height="100%" fill="#fff"/>\n{body}\n</svg>\n'
        )


# ---- a matrix

LINE, AREA, MATRIX = "LINESTRING(1 2,6 2)", "POLYGON((0 0,4 0,4 4,0 4,0 0))", "1010F0212"
# The steps that raise cells, with their colours.
STEPS = (
    ("at first: the exteriors meet", FAINT),
    ("step 1: the ends of the line", THIRD),
    ("step 2: the polygon's edges", SECOND),
    ("step 3: the line's edge", FIRST),
)
# The step that raises each cell, in the order of the matrix; none raises an F.
RAISED = (3, 2, 3, 1, None, 1, 2, 2, 0)
# Points with the parts of the line and of the polygon in which they lie, the step that locates them, and how far from them the
# label is, in units: the ends of the line and the point that both share; then a point of each gap, and one on each side of one.
NODES = (((1, 2), "BI", 1, (0, -0.32)), ((6, 2), "BE", 1, (0, -0.32)), ((4, 2), "IB", 2, (0.28, -0.3)))
GAPS = (
    ((2, 0), "EB", 2, (-1, -0.28)),
    ((4, 1), "EB", 2, (0.3, -0.15)),
    ((4, 3), "EB", 2, (0.3, 0)),
    ((2, 4), "EB", 2, (0, 0.26)),
    ((0, 2), "EB", 2, (-0.32, 0)),
    ((2.5, 2), "II", 3, (0, 0.26)),
    ((5, 2), "IE", 3, (0, 0.26)),
)
SIDES = (((2.5, 0.4), "EI", 2, (0, 0.24)), ((2.5, -0.4), "EE", 2, (0, -0.24)))
CORNERS = ((0, 0), (4, 0), (4, 4), (0, 4))
UNIT, CELL = 62, 54


def spot(point: Point) -> Point:
    """Returns where a point of the grid is in the picture of the matrix."""
    return 70 + UNIT * point[0], 348 - UNIT * point[1]


def draw_matrix() -> None:
    """Draws a line that leaves a square, cut into gaps, and the matrix of the two."""
    corners = " L".join("{:g} {:g}".format(*spot(it)) for it in CORNERS)
    lines = [
        text((28, 26), LINE, FIRST, family=MONO),
        text((28, 48), AREA, SECOND, family=MONO),
        f'<path d="M{corners} Z" fill="{SECOND}" fill-opacity="0.12" stroke="{SECOND}" stroke-width="3"/>',
        line(spot((1, 2)), spot((6, 2)), FIRST, 3),
        line(spot(SIDES[0][0]), spot(SIDES[1][0]), SECOND, 1.2, ' stroke-dasharray="3 3"'),
    ]
    for point in CORNERS:
        x, y = spot(point)
        lines.append(f'<circle cx="{x:g}" cy="{y:g}" r="3.5" fill="{SECOND}"/>')
    for point, _, step, _ in NODES:
        x, y = spot(point)
        lines.append(f'<circle cx="{x:g}" cy="{y:g}" r="5" fill="#fff" stroke="{STEPS[step][1]}" stroke-width="2.5"/>')
    for (x, y), label, step, (right, up) in NODES + GAPS + SIDES:
        lines.append(text(spot((x + right, y + up)), label, STEPS[step][1], 15, "middle"))
    left, top = 554, 108
    lines.append(text((left + 1.5 * CELL, top - 46), "polygon", SECOND, 15, "middle"))
    lines.append(text((left - 42, top + 1.5 * CELL), "line", FIRST, 15, "end"))
    for at, part in enumerate("IBE"):
        lines.append(text((left + (at + 0.5) * CELL, top - 20), part, SECOND, 16, "middle"))
        lines.append(text((left - 20, top + (at + 0.5) * CELL), part, FIRST, 16, "middle"))
    for at, (dimension, step) in enumerate(zip(MATRIX, RAISED)):
        x, y = left + at % 3 * CELL, top + at // 3 * CELL
        fill = "none" if step is None else STEPS[step][1]
        lines.append(rectangle(x, y, CELL, CELL, "#666", fill, ' fill-opacity="0.25"'))
        lines.append(text((x + CELL / 2, y + CELL / 2), dimension, INK, 20, "middle"))
    for at, (words, colour) in enumerate(STEPS):
        y = 302 + 22 * at
        lines.append(rectangle(508, y - 7, 14, 14, "#666", colour, ' fill-opacity="0.4"'))
        lines.append(text((530, y), words))
    lines.append(text((515, 390), "F", anchor="middle"))
    lines.append(text((530, 390), "no step raises this cell"))
    lines.append(text((28, 414), "EB: in the exterior of the line and on the boundary of the polygon"))
    write("matrix", f"{LINE} and {AREA}: {MATRIX}, and what raises each cell", 760, 434, lines)


# ---- a plan

# The lines of the query, each with the number of the conjunct that it belongs to.
QUERY_LINES = (
    ("SELECT b.purpose, p.name", None),
    ("FROM building b JOIN parcel p", None),
    ("ON", None),
    ("  ST_Within(b.geom, p.geom)", 1),
    ("WHERE", None),
    ("  ST_Intersects(b.geom, ST_GeomFromText(", 2),
    ("    'LINESTRING(0 2,10 2)'))", 2),
    ("AND", None),
    ("  b.built > 1900", 3),
)
QUERY = " ".join(words.strip() for words, _ in QUERY_LINES).replace("( ", "(")
CONJUNCTS = {1: FIRST, 2: THIRD, 3: SECOND}
COST = "cost 9"
# The lines of EXPLAIN: the line, the conjuncts it names, what it does, and what it finds.
PLAN = (
    ("outer b probe 2", (2,), ("Access: search the index of b.geom with", "the bounding box of the constant."), ("buildings 1, 2 and 3",)),
    ("inner p probe 1", (1,), ("Join: for each building, search the index", "of p.geom with its bounding box."),
     ("building 1 with parcel 101, 2 with 102", "and 109, 3 with 101, 102 and 109")),
    ("filter 3 1 2", (3, 1, 2), ("Filter: test conjunct 3, then 1, then 2.", "Of the 6 pairs 5, then 1, then 1 remain."), ("building 2 with parcel 102",)),
)
NOTES = (
    "A probe is a search of an index. It costs 4 and",
    "a tenth of the table's rows, rounded down: 4 for",
    "6 buildings, 5 for 13 parcels. The outer probe is",
    f"expected to find 1 row. So EXPLAIN prints {COST}:",
    "4 for the outer probe, and 1 times 5 for the inner.",
)


def badge(x: float, y: float, number: int) -> str:
    """Returns the number of a conjunct in a disc of its colour."""
    disc = f'<circle cx="{x:g}" cy="{y:g}" r="10" fill="{CONJUNCTS[number]}"/>'
    return disc + text((x, y), str(number), "#fff", 13, "middle")


def draw_plan() -> None:
    """Draws the conjuncts of a query, and the steps of its plan that use them."""
    lines = [text((24, 26), "Query", INK, 15), text((436, 26), "Plan, with the lines of EXPLAIN", INK, 15)]
    for at, (words, number) in enumerate(QUERY_LINES):
        y = 60 + 26 * at
        if number:
            lines.append(rectangle(18, y - 13, 348, 26, "none", CONJUNCTS[number], ' fill-opacity="0.15"'))
        if number and words[2] != " ":
            lines.append(badge(382, y, number))
        lines.append(text((24, y), words, family=MONO))
    lines += [text((24, 308 + 20 * at), words) for at, words in enumerate(NOTES)]
    for at, (heading, numbers, words, found) in enumerate(PLAN):
        top = 44 + 124 * at
        lines.append(rectangle(436, top, 304, 76, "#666", "#f6f6f6", ' rx="6"'))
        lines.append(text((450, top + 18), heading, family=MONO))
        for column, number in enumerate(numbers):
            lines.append(badge(724 - 24 * (len(numbers) - 1 - column), top + 18, number))
        lines += [text((450, top + 40 + 20 * row), it) for row, it in enumerate(words)]
        lines.append(arrow((456, top + 76), (456, top + 122)))
        lines += [text((472, top + 99 - 9 * (len(found) - 1) + 18 * row), it, THIRD) for row, it in enumerate(found)]
    write("plan", "The three conjuncts of a query, and the accesses and filters of its plan", 760, 424, lines)


# ---- an index join

# The children of the nodes A and B of the index of parcel.geom, in its order.
LEAVES = {"A": (101, 109, 104, 105, 113, 106, 107, 102), "B": (103, 108, 110)}
# The building that is the outer row, the parcels whose bounding boxes meet its own, and the one that it lies within.
OUTER, CANDIDATES, FOUND = 2, (102, 109), 102
# Where the number of a parcel is; the others have theirs in the middle of their bounding boxes. 105 and 113 have one place.
PLACES = {101: (2, 2), 102: (8, 0.5), 104: (1, 13), 106: (14, 12), 108: (17, 5), 109: (6, 5.2)}
STEP = 21


def boxes(table: str) -> dict[int, Box]:
    """Returns the bounding box of each row of a table of the land register that has a geometry with positions."""
    found = {}
    with open(f"{REGISTER}/{table}.csv", newline="", encoding="utf-8") as file:
        for row in csv.DictReader(file):
            positions = [(int(x), int(y)) for x, y in re.findall(r"(-?\d+) (-?\d+)", row["geom"])]
            if positions:
                across, up = zip(*positions)
                found[int(row["id"])] = (min(across), min(up), max(across), max(up))
    return found


def joined(parts: list[Box]) -> Box:
    """Returns the smallest box that contains all of these."""
    return min(it[0] for it in parts), min(it[1] for it in parts), max(it[2] for it in parts), max(it[3] for it in parts)


def corners(box: Box) -> str:
    """Returns the lower left and the upper right corner of a box."""
    return f"{box[0]} {box[1]} to {box[2]} {box[3]}"


def place(point: Point) -> Point:
    """Returns where a point of the grid is in the picture of the index join."""
    return 34 + STEP * point[0], 340 - STEP * point[1]


def framed(box: Box, stroke: str, fill: str = "none", more: str = "", wider: float = 0) -> str:
    """Returns the rectangle of a box, which is so much wider on each side."""
    (left, bottom), (right, top) = place(box[:2]), place(box[2:])
    return rectangle(left - wider, top - wider, right - left + 2 * wider, bottom - top + 2 * wider, stroke, fill, more)


def draw_index_join() -> None:
    """Draws the bounding boxes of the parcels with the nodes of their index, and the search with the box of one building."""
    parcels, outer = boxes("parcel"), boxes("building")[OUTER]
    nodes = {name: joined([parcels[it] for it in keys]) for name, keys in LEAVES.items()}
    lines = [text((24, 24), "Bounding boxes of the parcels", INK, 15), text((484, 24), "Index of p.geom", INK, 15)]
    for key, box in parcels.items():
        if key not in CANDIDATES:
            lines.append(framed(box, "#999", "#999", ' fill-opacity="0.1"'))
    for key in CANDIDATES:
        lines.append(framed(parcels[key], FIRST, FIRST, ' fill-opacity="0.2" stroke-width="2"'))
    lines.append(framed(nodes["A"], FIRST, more=' stroke-width="1.5" stroke-dasharray="7 4"', wider=4))
    lines.append(framed(nodes["B"], FAINT, more=' stroke-width="1.5" stroke-dasharray="2 4"', wider=4))
    lines.append(framed(outer, SECOND, SECOND, ' fill-opacity="0.45" stroke-width="2"'))
    for key, box in parcels.items():
        at = place(PLACES.get(key, ((box[0] + box[2]) / 2, (box[1] + box[3]) / 2)))
        if key != 113:
            lines.append(text(at, "105, 113" if key == 105 else str(key), FIRST if key in CANDIDATES else INK, 12, "middle"))
    lines.append(text(place((8, 2)), "b", INK, 12, "middle"))
    lines.append(text((place((0, 14))[0] - 14, place((0, 13.6))[1]), "A", FIRST, 14, "middle"))
    lines.append(text((place((20, 0))[0] + 14, place((0, 0.4))[1]), "B", FAINT, 14, "middle"))
    lines.append(rectangle(540, 46, 160, 28, FIRST, "#fff", ' stroke-width="2" rx="4"'))
    lines.append(text((620, 60), f"root: {corners(joined(list(nodes.values())))}", INK, SIZE, "middle"))
    for name, left, colour in (("A", 484, FIRST), ("B", 630, FAINT)):
        lines.append(line((620, 74), (left + 64, 106), colour))
        lines.append(rectangle(left, 106, 128, 28, colour, "#fff", ' stroke-width="2" rx="4"'))
        lines.append(text((left + 64, 120), f"{name}: {corners(nodes[name])}", INK if name == "A" else FAINT, SIZE, "middle"))
        for at, key in enumerate(LEAVES[name]):
            x, y, is_candidate = left + 14 + 54 * (at % 2), 150 + 30 * (at // 2), key in CANDIDATES
            lines.append(rectangle(x, y, 46, 24, colour, FIRST if is_candidate else "#fff", ' rx="3"'))
            lines.append(text((x + 23, y + 12), str(key), "#fff" if is_candidate else INK if name == "A" else FAINT, SIZE, "middle"))
    others = " and ".join(str(it) for it in CANDIDATES)
    for at, words in enumerate((f"The outer row b is building {OUTER}: {corners(outer)}.", "The search skips node B, because its", "bounding box doesn't meet that of b.",
                                f"The candidates are {others}.", f"ST_Within holds for {FOUND}.")):
        lines.append(text((484, 288 + 20 * at), words, SECOND if not at else INK))
    write("index-join", f"The search of an index with the bounding box of building {OUTER}: the candidates are parcels {others}", 780, 388, lines)


if __name__ == "__main__":
    draw_matrix()
    draw_plan()
    draw_index_join()
