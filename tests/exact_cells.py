"""What shows each cell of the DE-9IM matrix of two geometries, in exact fractions and by definitions alone.

Nothing of sfq's code is used. Interior, boundary and exterior are those of OGC 06-103r4, 6.1.4 to 6.1.15. All edges of both
geometries are cut wherever they meet one another. The ends of cuts are nodes, and what lies between two neighbouring nodes
of an edge is a piece; within a piece, and within a face beside it, every point is in the same parts. Shown is the first in
ascending order, by x, then by y, a piece by its lesser end, then by its greater: a face point beside the first piece, above
it before below it; else the first piece; else the first node. A face point is half-way from the piece to what comes next,
straight up or down from the mediant of the piece's ends, or one step away where nothing comes.
"""
import functools
import math
import random
import re
from fractions import Fraction
from typing import NamedTuple

PARTS = ("interior", "boundary", "exterior")
INTERIOR, BOUNDARY, EXTERIOR = PARTS


class Shape(NamedTuple):
    """A geometry: its dimension, its positions, lines or rings, and the edges of these, lesser ends first."""

    dimension: int
    parts: list
    edges: list

    def positions(self):
        return [p for part in self.parts for p in part]


def read(text):
    """Returns the shape of a well-known text that is known to be right."""
    kind = text.split("(")[0].split()[0].upper()
    groups = re.findall(r"[^()]*\d[^()]*", text[len(kind):])
    parts = [[tuple(int(Fraction(n)) for n in p.split()) for p in it.strip(" ,").split(",")] for it in groups]
    if "POINT" in kind:
        return Shape(0, parts, [])
    edges = [tuple(sorted(e)) for part in parts for e in zip(part, part[1:]) if e[0] != e[1]]
    return Shape(1 if "LINE" in kind else 2, parts, edges)


# ---- which part of a shape a point is in

def side(a, b, p):
    """Returns a number above 0 where p is left of the way from a to b, below 0 where right, 0 on the line."""
    return (b[0] - a[0]) * (p[1] - a[1]) - (b[1] - a[1]) * (p[0] - a[0])


def is_on(edge, p):
    a, b = edge
    within = a[0] <= p[0] <= b[0] and min(a[1], b[1]) <= p[1] <= max(a[1], b[1])
    return within and side(a, b, p) == 0


def is_enclosed(edges, p):
    """Whether a ray upward from p crosses the edges an odd number of times."""
    crossed = [e for e in edges if e[0][0] <= p[0] < e[1][0] and side(*e, p) < 0]
    return len(crossed) % 2 == 1


def part_of(shape, p):
    """Returns the part of the shape that has the point."""
    if shape.dimension == 0:
        return INTERIOR if p in shape.positions() else EXTERIOR
    if shape.dimension == 1:
        ends = [end for line in shape.parts for end in (line[0], line[-1])]
        if ends.count(p) % 2 == 1:
            return BOUNDARY
        return INTERIOR if any(is_on(e, p) for e in shape.edges) else EXTERIOR
    if any(is_on(e, p) for e in shape.edges):
        return BOUNDARY
    return INTERIOR if is_enclosed(shape.edges, p) else EXTERIOR


# ---- nodes and pieces

def shared(e, f):
    """Returns the points that two edges share, of a stretch its two ends, ascending."""
    (a, b), (c, d) = e, f
    found = {p for p in e if is_on(f, p)} | {p for p in f if is_on(e, p)}
    across = (b[0] - a[0]) * (d[1] - c[1]) - (b[1] - a[1]) * (d[0] - c[0])
    if across != 0:
        along = Fraction((c[0] - a[0]) * (d[1] - c[1]) - (c[1] - a[1]) * (d[0] - c[0]), across)
        p = a[0] + along * (b[0] - a[0]), a[1] + along * (b[1] - a[1])
        if is_on(e, p) and is_on(f, p):
            found.add(p)
    return sorted(found)


def noded(a, b):
    """Returns the nodes and the pieces of two shapes, ascending."""
    edges = sorted({*a.edges, *b.edges})
    nodes = {*a.positions(), *b.positions()}
    for at, e in enumerate(edges):
        for f in edges[at + 1:]:
            nodes.update(shared(e, f))
    pieces = set()
    for e in edges:
        cuts = sorted(p for p in nodes if is_on(e, p))
        pieces.update(zip(cuts, cuts[1:]))
    return sorted(nodes), sorted(pieces), edges


def triple(p):
    """Returns both numerators of a point over their least common denominator, and that."""
    below = math.lcm(p[0].denominator, p[1].denominator)
    return int(p[0] * below), int(p[1] * below), below


def sample(piece):
    """Returns the mediant of the ends of a piece."""
    x, y, below = (sum(both) for both in zip(*map(triple, piece)))
    return Fraction(x, below), Fraction(y, below)


def heights(edges, positions, x):
    """Returns the heights at which edges and positions are straight above or below one another at x."""
    found = [p[1] for p in positions if p[0] == x]
    for a, b in edges:
        if a[0] == b[0] == x:
            found += [a[1], b[1]]
        elif a[0] <= x <= b[0]:
            found.append(a[1] + (b[1] - a[1]) * (x - a[0]) / (b[0] - a[0]))
    return found


def face_point(edges, positions, p, is_above):
    """Returns the point half-way to what comes next straight above p, or below it; one step away where nothing comes."""
    seen = heights(edges, positions, p[0])
    if is_above:
        return p[0], (p[1] + min((y for y in seen if y > p[1]), default=p[1] + 2)) / 2
    return p[0], (p[1] + max((y for y in seen if y < p[1]), default=p[1] - 2)) / 2


# ---- what is shown

def point_text(p):
    return f"{p[0]} {p[1]}"


def far_point(positions):
    return max([Fraction(0), *(x + 1 for x, _ in positions)]), Fraction(0)


def shown(a, b):
    """Returns what shows each cell of two shapes, by the names of the two parts: a text that begins with the dimension."""
    nodes, pieces, edges = noded(a, b)
    positions = a.positions() + b.positions()
    both = lambda p: (part_of(a, p), part_of(b, p))
    found = {}
    for piece in pieces:
        if piece[0][0] != piece[1][0]:
            for is_above in (True, False):
                p = face_point(edges, positions, sample(piece), is_above)
                found.setdefault(both(p), f"2 around {point_text(p)}")
    found.setdefault((EXTERIOR, EXTERIOR), f"2 around {point_text(far_point(positions))}")
    for piece in pieces:
        found.setdefault(both(sample(piece)), f"1 from {point_text(piece[0])} to {point_text(piece[1])}")
    for p in nodes:
        found.setdefault(both(p), f"0 at {point_text(p)}")
    return found


@functools.lru_cache(maxsize=None)
def lines(first, second):
    """Returns the nine lines of two well-known texts, in the order of the matrix."""
    found = shown(read(first), read(second))
    return "".join(f"{l} {k} {found.get((l, k), 'F')}\n" for l in PARTS for k in PARTS)


# ---- predicates

def related(matrix, *texts):
    """Returns the names of the predicates that hold of two texts with this matrix, by the sets of points (06-103r4, 6.1.15.3)."""
    inner = matrix[0]
    (a, b), is_in, covers = (read(it).dimension for it in texts), matrix[2] == matrix[5] == "F", matrix[6] == matrix[7] == "F"
    meet = any(matrix[it] != "F" for it in (0, 1, 3, 4))
    # Interiors that meet in a set of a lesser dimension than the greater one of the two types.
    is_less, is_apart = inner != "F" and int(inner) < max(a, b), not is_in and not covers
    truths = {
        "ST_Equals": is_in and covers, "ST_Disjoint": not meet, "ST_Intersects": meet, "ST_Touches": meet and inner == "F",
        "ST_Within": inner != "F" and is_in, "ST_Contains": inner != "F" and covers,
        "ST_Crosses": is_less and is_apart and (a != b or a == 1),
        "ST_Overlaps": a == b and inner == str(a) and is_apart,
    }
    return {name for name, holds in truths.items() if holds}


# ---- random geometries, each valid

def random_line(dice, most):
    """Returns positions of which no two neighbours are equal."""
    points = [(dice.randint(0, most), dice.randint(0, most))]
    while len(points) < 2 or dice.random() < 0.6:
        p = dice.randint(0, most), dice.randint(0, most)
        if p != points[-1]:
            points.append(p)
    return points


def ring_edges(ring):
    return [tuple(sorted(e)) for e in zip(ring, ring[1:])]


def is_simple(ring):
    """Whether the edges of a closed ring share nothing but the ends of neighbours."""
    edges = ring_edges(ring)
    for i, e in enumerate(edges):
        for j in range(i + 1, len(edges)):
            common = shared(e, edges[j])
            is_next = j == i + 1 or (i == 0 and j == len(edges) - 1)
            if len(common) > (1 if is_next and len(edges) > 2 else 0):
                return False
    return len(edges) > 2


def random_ring(dice, low, high):
    """Returns a simple ring of some positions of a square."""
    while True:
        corners = [(dice.randint(low, high), dice.randint(low, high)) for _ in range(dice.randint(3, 6))]
        ring = [*corners, corners[0]]
        if all(p != q for p, q in ring_edges(ring)) and is_simple(ring):
            return ring


def share_points(ring, other):
    return any(shared(e, f) for e in ring_edges(ring) for f in ring_edges(other))


def encloses(ring, p):
    return is_enclosed(ring_edges(ring), p)


def random_area(dice, most):
    """Returns the rings of a polygon: an outer one, and perhaps a hole or two."""
    rings = [random_ring(dice, 0, most)]
    for _ in range(dice.choice((0, 1, 1, 3))):
        hole = random_ring(dice, 1, most - 1)
        if not encloses(rings[0], hole[0]) or any(share_points(hole, it) for it in rings):
            continue
        if not any(encloses(it, hole[0]) or encloses(hole, it[0]) for it in rings[1:]):
            rings.append(hole)
    return rings


def random_areas(dice, most):
    """Returns polygons that share no point and of which none is inside another, but for one in a hole."""
    areas = [random_area(dice, most)]
    for _ in range(4):
        other = random_area(dice, most)
        apart = not any(share_points(r, s) for area in areas for r in area for s in other)
        inside = any(sum(encloses(r, p[0][0]) for r in q) % 2 for area in areas for p, q in ((area, other), (other, area)))
        if apart and not inside:
            areas.append(other)
    return areas


def positions_text(points):
    return "(" + ",".join(f"{x} {y}" for x, y in points) + ")"


def joined(texts):
    return "(" + ",".join(texts) + ")"


def random_text(dice, most):
    """Returns the text of a random geometry of one of the six types, of coordinates from 0 to `most`."""
    kind = dice.randrange(6)
    if dice.random() < 0.02:
        return ("POINT", "MULTIPOINT", "LINESTRING", "MULTILINESTRING", "POLYGON", "MULTIPOLYGON")[kind] + " EMPTY"
    points = [(dice.randint(0, most), dice.randint(0, most)) for _ in range(dice.randint(1, 4))]
    if kind == 0:
        return "POINT" + positions_text(points[:1])
    if kind == 1:
        return "MULTIPOINT" + positions_text(points)
    if kind == 2:
        return "LINESTRING" + positions_text(random_line(dice, most))
    if kind == 3:
        return "MULTILINESTRING" + joined(positions_text(random_line(dice, most)) for _ in range(dice.randint(1, 3)))
    if kind == 4:
        return "POLYGON" + joined(map(positions_text, random_area(dice, most)))
    areas = random_areas(dice, most)
    return "MULTIPOLYGON" + joined(joined(map(positions_text, it)) for it in areas)


def random_pairs(count, seed):
    """Returns pairs of texts, the same for a seed: of small coordinates, where much coincides, and of great ones."""
    dice = random.Random(seed)
    return [tuple(random_text(dice, most) for _ in range(2)) for most in (dice.choice((4, 6, 9, 40)) for _ in range(count))]
