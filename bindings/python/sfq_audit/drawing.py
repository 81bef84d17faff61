"""Draws geometries as an SVG, with what `sfq why` shows of them.

The first geometry is blue, the second orange. Where the two meet is marked: a point by a dot, a stretch by a thick line, an area by a ring
around a point of it. The place of a fault is red. Python's standard library is enough, and no other module of the package.
"""
from __future__ import annotations

import re
from fractions import Fraction
from typing import Iterable, Sequence
from xml.sax.saxutils import escape

SIZE, MARGIN = 480, 24
COLOURS = ("#2a6fb0", "#d9822b")
FAULT, MARK, OTHER = "#c62828", "#1b1b1b", "#9aa0a6"
Point = tuple[Fraction, Fraction]
NUMBER = r"(-?\d+(?:/\d+)?)"
POINT = rf"{NUMBER} {NUMBER}"


def parts_of(text: str) -> list[list[Point]]:
    """Returns the lists of positions in a well-known text."""
    groups = re.findall(r"[^()]*\d[^()]*", text.partition("(")[2])
    return [[point(it) for it in group.strip(" ,").split(",")] for group in groups]


def point(text: str) -> Point:
    x, y = map(Fraction, text.split())
    return x, y


def points_in(line: str) -> list[Point]:
    """Returns the points that a line names after a word, such as `at 6/5 2/5`."""
    return [(Fraction(x), Fraction(y)) for x, y in re.findall(rf"(?<![\w/]){POINT}(?![\w/])", line)]


class Marks:
    """What is marked, by the kind of mark."""

    def __init__(self, lines: Iterable[str]) -> None:
        self.points: list[Point] = []
        self.rings: list[Point] = []
        self.stretches: list[list[Point]] = []
        self.faults: list[list[Point]] = []
        for line in lines:
            if re.match(r"(?:interior|boundary|exterior) ", line):
                self.add_cell(line)
            elif re.match(r"V\d ", line):
                self.add_fault(line.partition(": ")[2])

    def add_cell(self, line: str) -> None:
        points = points_in(line.split(" ", 3)[3] if line.count(" ") > 2 else "")
        if " at " in line:
            self.points += points
        elif " from " in line:
            self.stretches.append(points)
        elif " around " in line:
            self.rings += points

    def add_fault(self, place: str) -> None:
        """Takes what two edges share, or the last points of the place."""
        place = place.partition(" share ")[2] or re.sub(r".*\bleft ", "", place)
        self.faults.append(points_in(place))

    def all_points(self) -> list[Point]:
        return self.points + self.rings + [p for group in self.stretches + self.faults for p in group]


class Page:
    """The scale from the grid to the page, whose y goes down."""

    def __init__(self, points: Sequence[Point]) -> None:
        xs, ys = zip(*(points or [(Fraction(0), Fraction(0))]))
        self.left, self.top = min(xs), max(ys)
        self.step = Fraction(SIZE - 2 * MARGIN) / max(max(xs) - self.left, self.top - min(ys), 1)
        self.height = float(2 * MARGIN + (self.top - min(ys)) * self.step)

    def place(self, p: Point) -> tuple[str, str]:
        x, y = MARGIN + (p[0] - self.left) * self.step, MARGIN + (self.top - p[1]) * self.step
        return f"{float(x):.2f}", f"{float(y):.2f}"

    def path(self, parts: Iterable[Iterable[Point]], is_closed: bool) -> str:
        way = " ".join("M" + " L".join(",".join(self.place(p)) for p in part) for part in parts)
        return way + (" Z" if is_closed else "")

    def dot(self, p: Point, kind: str, radius: int, paint: str) -> str:
        x, y = self.place(p)
        return f'<circle class="{kind}" cx="{x}" cy="{y}" r="{radius}" {paint}/>'

    def line(self, points: Iterable[Point], kind: str, paint: str) -> str:
        return f'<path class="{kind}" d="{self.path([points], False)}" fill="none" {paint}/>'


def shape(page: Page, text: str, kind: str, colour: str) -> list[str]:
    """Returns the drawing of a geometry."""
    parts = parts_of(text)
    word = text.strip().upper()
    if not parts:
        return []
    if "POINT" in word:
        return [page.dot(p, kind, 5, f'fill="{colour}"') for part in parts for p in part]
    if "LINE" in word:
        return [page.line(part, kind, f'stroke="{colour}" stroke-width="2"') for part in parts]
    paint = f'fill="{colour}" fill-opacity="0.25" fill-rule="evenodd" stroke="{colour}" stroke-width="2"'
    return [f'<path class="{kind}" d="{page.path(parts, True)}" {paint}/>']


def drawn_fault(page: Page, points: Sequence[Point]) -> list[str]:
    if len(points) == 1:
        return [page.dot(points[0], "fault", 7, f'fill="{FAULT}"')]
    return [page.line(points, "fault", f'stroke="{FAULT}" stroke-width="6"')]


def svg(title: str, body: Iterable[str], height: float = SIZE) -> str:
    """Returns the text of an SVG."""
    head = f'<svg xmlns="http://www.w3.org/2000/svg" viewBox="0 0 {SIZE} {height:g}" width="{SIZE}" height="{height:g}">'
    title = f"<title>{escape(title)}</title>"
    return "\n".join([head, title, '<rect width="100%" height="100%" fill="#fff"/>', *body, "</svg>\n"])


def drawing(texts: Sequence[str], lines: Iterable[str]) -> str:
    """Returns the SVG of some texts and of the lines of `why`."""
    marks = Marks(lines)
    page = Page([p for text in texts for part in parts_of(text) for p in part] + marks.all_points())
    body = []
    for text, kind, colour in zip(texts, ("first", "second"), COLOURS):
        body += shape(page, text, kind, colour)
    body += [page.line(it, "stretch", f'stroke="{MARK}" stroke-width="5" stroke-opacity="0.5"') for it in marks.stretches]
    body += [page.dot(p, "ring", 8, f'fill="none" stroke="{MARK}" stroke-width="1.5"') for p in marks.rings]
    body += [page.dot(p, "point", 4, f'fill="{MARK}"') for p in marks.points]
    body += [it for points in marks.faults if points for it in drawn_fault(page, points)]
    return svg(" and ".join(texts), body)
