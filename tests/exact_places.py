"""Whether a line or an area is valid, and where it isn't, in exact fractions and by definitions alone.

Nothing of sfq's code is used. The faults are those of OGC 06-103r4, 6.1.7, 6.1.11.1 and 6.1.14, tested in the order V1 to V8,
each for the least numbers first; rings are numbered through all polygons. Of several places the first is shown: edges by their
order in the first ring and then in the second, rings by their order in the first polygon and then in the second.
"""
import json
import re
from itertools import combinations, permutations

from exact_cells import is_enclosed, point_text, shared


def read(text):
    """Returns the type of a well-known text of whole numbers, and its lists of positions without repeats."""
    kind = text.split("(")[0].split()[0]
    if "EMPTY" in text:
        return kind, []
    lists = re.sub(r"([^\s(),]+)\s+([^\s(),]+)", r"[\1,\2]", text[len(kind):])
    return kind, without_repeats(json.loads(lists.replace("(", "[").replace(")", "]")))


def without_repeats(part):
    """Returns lists within lists with the repeats of positions left out."""
    if isinstance(part[0][0], list):
        return [without_repeats(it) for it in part]
    points = [tuple(it) for it in part]
    return [p for at, p in enumerate(points) if at == 0 or p != points[at - 1]]


def ways(ring):
    return list(zip(ring, ring[1:]))


def common(e, f):
    """Returns what two edges share: no point, one, or the two ends of a stretch."""
    return shared(tuple(sorted(e)), tuple(sorted(f)))


def share_text(e, f, points):
    """Returns two edges by their ends, and what they share."""
    edges = " and ".join(f"{point_text(p)} to {point_text(q)}" for p, q in (e, f))
    return f"{edges} share {' to '.join(map(point_text, points))}"


def clash(ring):
    """Returns the first two edges of a ring that share more than neighbours may."""
    edges = ways(ring)
    for (i, e), (j, f) in combinations(enumerate(edges), 2):
        points = common(e, f)
        neighbours = j == i + 1 or (i == 0 and j == len(edges) - 1)
        if len(points) > neighbours:
            return share_text(e, f, points)
    return None


def meeting(rings, others):
    """Returns the first two edges of rings and others that share a point."""
    for r in rings:
        for s in others:
            for e in ways(r):
                for f in ways(s):
                    if common(e, f):
                        return share_text(e, f, common(e, f))
    return None


def is_inside(p, rings):
    return is_enclosed([tuple(sorted(e)) for ring in rings for e in ways(ring)], p)


def faults_of_parts(parts, least, are_rings):
    """Yields the faults of single lines or rings."""
    for i, part in enumerate(parts):
        if len(part) < least:
            left = "1 position left at" if len(part) == 1 else f"{len(part)} positions left from"
            yield f"V1 {i}: {left} {point_text(part[0])}"
    for i, ring in enumerate(parts if are_rings else []):
        if ring[0] != ring[-1]:
            yield f"V2 {i}: from {point_text(ring[0])} to {point_text(ring[-1])} isn't closed"
    for i, ring in enumerate(parts if are_rings else []):
        if clash(ring):
            yield f"V3 {i}: {clash(ring)}"


def numbered(areas):
    """Returns the polygons with each ring's number."""
    numbers = iter(range(sum(map(len, areas))))
    return [[(next(numbers), ring) for ring in area] for area in areas]


def faults_of_polygons(areas):
    """Yields the faults of rings of one polygon."""
    for area in numbered(areas):
        for (i, r), (j, s) in combinations(area, 2):
            if meeting([r], [s]):
                yield f"V4 {i} {j}: {meeting([r], [s])}"
    for area in numbered(areas):
        for i, hole in area[1:]:
            if not is_inside(hole[0], [area[0][1]]):
                yield f"V5 {i}: outside at {point_text(hole[0])}"
    for area in numbered(areas):
        for (i, r), (j, s) in combinations(area[1:], 2):
            for p in [s[0]] * is_inside(s[0], [r]) + [r[0]] * is_inside(r[0], [s]):
                yield f"V6 {i} {j}: inside at {point_text(p)}"


def faults_of_areas(areas):
    """Yields the faults of two polygons."""
    for (i, area), (j, other) in combinations(enumerate(areas), 2):
        if meeting(area, other):
            yield f"V7 {i} {j}: {meeting(area, other)}"
    for (i, area), (j, other) in sorted(permutations(enumerate(areas), 2)):
        if is_inside(area[0][0], other):
            yield f"V8 {i} {j}: inside at {point_text(area[0][0])}"


def faults(text):
    """Yields the faults of the geometry of a text with their places, the first of them first."""
    kind, lists = read(text)
    if "POINT" in kind or not lists:
        return
    if "LINE" in kind:
        yield from faults_of_parts([lists] if kind == "LINESTRING" else lists, 2, False)
        return
    areas = [lists] if kind == "POLYGON" else lists
    yield from faults_of_parts([ring for area in areas for ring in area], 4, True)
    yield from faults_of_polygons(areas)
    yield from faults_of_areas(areas)


def line(text):
    """Returns what `sfq why` prints of one geometry."""
    return next(faults(text), "valid") + "\n"


def random_text(dice, most):
    """Returns the text of a polygon or polygons that are seldom valid."""

    def ring():
        corners = [(dice.randint(0, most), dice.randint(0, most)) for _ in range(dice.choice((2, 3, 3, 4, 4, 5)))]
        ends = corners[:1] if dice.random() < 0.97 else [(most, most)]
        return "(" + ",".join(f"{x} {y}" for x, y in corners + ends) + ")"

    def area():
        return "(" + ",".join(ring() for _ in range(dice.choice((1, 1, 2, 3)))) + ")"

    if dice.random() < 0.5:
        return "POLYGON" + area()
    return "MULTIPOLYGON(" + ",".join(area() for _ in range(dice.choice((1, 2, 3)))) + ")"
