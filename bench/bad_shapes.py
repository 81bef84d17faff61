"""The bad inputs of one or two geometries: shapes that make many edges near one another, share much or cover themselves.

Each function takes a size, and returns a text for `check` or a pair of texts for `relate`. Chance is seeded by the size. Numbers
are small, so that a text of 10,000 positions can be a word of a command line.
"""

import math
import random
import re
from typing import Sequence

from relate import combs as straight_combs

SPAN = 9_000


def positions_text(positions: Sequence[tuple[int, int]]) -> str:
    """The text of a list of positions."""
    return "(" + ",".join(f"{x} {y}" for x, y in positions) + ")"


def line(positions: Sequence[tuple[int, int]]) -> str:
    """The text of a line."""
    return "LINESTRING" + positions_text(positions)


def lines(several: Sequence[Sequence[tuple[int, int]]]) -> str:
    """The text of several lines."""
    return "MULTILINESTRING(" + ",".join(map(positions_text, several)) + ")"


def rings_text(rings: Sequence[list[tuple[int, int]]]) -> str:
    """The text of the rings of a polygon, each of which is closed here."""
    return "(" + ",".join(positions_text(ring + ring[:1]) for ring in rings) + ")"


def polygon(*rings: list[tuple[int, int]]) -> str:
    """The text of a polygon."""
    return "POLYGON" + rings_text(rings)


def polygons(several: Sequence[Sequence[list[tuple[int, int]]]]) -> str:
    """The text of several polygons, each of which is a list of rings."""
    return "MULTIPOLYGON(" + ",".join(map(rings_text, several)) + ")"


def points(positions: Sequence[tuple[int, int]]) -> str:
    """The text of several points."""
    return "MULTIPOINT(" + ",".join(f"({x} {y})" for x, y in positions) + ")"


def twice(text: str) -> tuple[str, str]:
    """A geometry, and itself."""
    return text, text


def backwards(text: str) -> str:
    """A geometry without holes with its positions, lines and polygons in reverse order."""
    kind, _, body = text.partition("(")
    tokens = re.findall(r"[(),]|[^(),]+", "(" + body)[::-1]
    return kind + "".join({"(": ")", ")": "("}.get(token, token) for token in tokens)


def both_backwards(pair: tuple[str, str]) -> tuple[str, str]:
    """Both geometries of a pair with their positions, lines and polygons in reverse order."""
    return backwards(pair[0]), backwards(pair[1])


def at_random(chance: random.Random) -> tuple[int, int]:
    """A position anywhere."""
    return chance.randint(-SPAN, SPAN), chance.randint(-SPAN, SPAN)


def star_ring(count: int, start: int = 0) -> list[tuple[int, int]]:
    """The positions of a star at distances that vary, from one of them on."""
    chance = random.Random(count)
    ring = []
    for k in range(count):
        angle, distance = 2 * math.pi * k / count, SPAN * (0.5 + 0.5 * chance.random())
        ring.append((round(distance * math.cos(angle)), round(distance * math.sin(angle))))
    return ring[start:] + ring[:start]


def to_and_fro(count: int) -> tuple[str, str]:
    """A line whose edges are all on one line, to and fro, so that it covers itself many times."""
    chance = random.Random(count)
    return twice(line([(3 * at, at) for at in (chance.randint(-SPAN // 3, SPAN // 3) for _ in range(count))]))


def to_and_fro_upright(count: int) -> tuple[str, str]:
    """The same on an upright line."""
    chance = random.Random(count)
    return twice(line([(5, chance.randint(-SPAN, SPAN)) for _ in range(count)]))


def scribble(count: int) -> tuple[str, str]:
    """A line from one position anywhere to the next, so that a third of all pairs of its edges cross."""
    chance = random.Random(count)
    return twice(line([at_random(chance) for _ in range(count)]))


def scribble_reversed(count: int) -> tuple[str, str]:
    """The same line, and it backwards."""
    chance = random.Random(count)
    positions = [at_random(chance) for _ in range(count)]
    return line(positions), line(positions[::-1])


def two_scribbles(count: int) -> tuple[str, ...]:
    """Two such lines, which share no stretch."""
    chance = random.Random(count)
    return tuple(line([at_random(chance) for _ in range(count)]) for _ in range(2))


def random_segments(count: int) -> tuple[str, str]:
    """Lines of one edge each, anywhere."""
    chance = random.Random(count)
    return twice(lines([[at_random(chance), at_random(chance)] for _ in range(count)]))


def street_grid(count: int) -> tuple[str, str]:
    """A grid of streets, of which each is one line."""
    side, step = count // 2, 2 * SPAN // (count // 2)
    level = [[(-SPAN, -SPAN + step * k), (SPAN, -SPAN + step * k)] for k in range(side)]
    upright = [[(x, y) for y, x in street] for street in level]
    return twice(lines(level + upright))


def mown_row(count: int, is_upright: bool) -> list[tuple[int, int]]:
    """A line of rows from side to side, as a field is mown."""
    step = 2 * SPAN // (count // 2)
    row = []
    for k in range(count // 2):
        ends = [(-SPAN, -SPAN + step * k), (SPAN, -SPAN + step * k)]
        row += ends if k % 2 == 0 else ends[::-1]
    return [(y, x) for x, y in row] if is_upright else row


def cross_mown(count: int) -> tuple[str, str]:
    """A field that is mown from side to side and then upwards, in one line."""
    return twice(line(mown_row(count // 2, False) + mown_row(count // 2, True)))


def along_edge(count: int) -> tuple[str, str]:
    """A line that goes to and fro along the edge of a triangle, and the triangle."""
    chance = random.Random(count)
    return line([(at, at) for at in (chance.randint(-SPAN, SPAN) for _ in range(count))]), polygon(
        [(-SPAN, -SPAN), (SPAN, SPAN), (-SPAN, SPAN)]
    )


def long_over_stretches(count: int) -> tuple[str, str]:
    """Long lines on one line, and short stretches of it with gaps between."""
    chance, reach = random.Random(count), SPAN // 3

    def ends(a: int, b: int) -> list[tuple[int, int]]:
        return [(3 * a, a), (3 * b, b)]

    long = [ends(chance.randint(-reach, -reach // 2), chance.randint(reach // 2, reach)) for _ in range(count)]
    step = 2 * reach // count
    return lines(long), lines([ends(-reach + step * k, -reach + step * k + step // 2) for k in range(count)])


def along_edge_step_by_step(count: int) -> tuple[str, str]:
    """A line of short steps along the edge of a triangle with as many positions there, and the triangle."""
    step = 2 * SPAN // count
    edge = [(-SPAN + step * k, -SPAN + step * k) for k in range(count)]
    return line(edge), polygon(edge + [(-SPAN, SPAN)])


def points_shuffled(count: int) -> tuple[str, str]:
    """Points, and the same in another order."""
    chance = random.Random(count)
    positions = [at_random(chance) for _ in range(count)]
    return points(positions), points(chance.sample(positions, count))


def squares_shuffled(count: int) -> str:
    """So many squares of a grid, in no order."""
    across = math.isqrt(count - 1) + 1
    corners = [(10 * (k % across), 10 * (k // across)) for k in range(count)]
    random.Random(count).shuffle(corners)
    return polygons([[[(x, y), (x + 6, y), (x + 6, y + 6), (x, y + 6)]] for x, y in corners])


def points_in_shuffled_squares(count: int) -> tuple[str, str]:
    """Squares of a grid, in no order, and as many points."""
    chance = random.Random(count)
    reach = 10 * (math.isqrt(count - 1) + 1)
    return points([(chance.randrange(reach), chance.randrange(reach)) for _ in range(count)]), squares_shuffled(count)


def points_equal(count: int) -> tuple[str, str]:
    """One point, listed so often."""
    return twice(points([(3, 5)] * count))


def points_on_upright(count: int) -> tuple[str, str]:
    """Points on an upright line, and the same in another order."""
    positions = [(5, 2 * k) for k in range(count)]
    return points(positions), points(random.Random(count).sample(positions, count))


def points_apart(count: int) -> tuple[str, ...]:
    """Two lists of points without a point in common."""
    chance = random.Random(count)
    return tuple(points([(2 * (x // 2) + odd, y) for x, y in (at_random(chance) for _ in range(count))]) for odd in (0, 1))


def points_of_scribble(count: int) -> tuple[str, str]:
    """The positions of a scribble as points, and the scribble."""
    chance = random.Random(count)
    positions = [at_random(chance) for _ in range(count)]
    return points(positions), line(positions)


def points_in_spiral(count: int) -> tuple[str, str]:
    """Points inside a spiral, and the spiral."""
    chance, ring = random.Random(count), spiral_ring(count)
    inside = [((x + u) // 2, (y + v) // 2) for (x, y), (u, v) in zip(ring, ring[::-1])]
    return points(chance.sample(inside, len(inside))), polygon(ring)


def zigzag_ring(count: int) -> list[tuple[int, int]]:
    """A band that goes to and fro askew, so that the bounds of all its edges overlap."""
    half, reach = count // 2, SPAN // 2
    left = [(2 * k + (reach if k % 2 else -reach) // 2, -2 * k + (reach if k % 2 else -reach) // 2) for k in range(half)]
    right = [(x + 1, y + 1) for x, y in left]
    return left + right[::-1]


def zigzag(count: int) -> str:
    """A polygon that goes to and fro askew."""
    return polygon(zigzag_ring(count))


def zigzag_that_crosses(count: int) -> str:
    """The same, but its last edge crosses its first."""
    *ring, (x, y) = zigzag_ring(count)
    return polygon([*ring, (x - 1, y - 60)])


def ragged_star(count: int) -> str:
    """A star whose corners are far and near in turn, so that all its edges are long and thin spokes."""
    ring = []
    for k in range(count):
        angle, distance = 2 * math.pi * k / count, 100 * SPAN * (1 if k % 2 else 0.2)
        ring.append((round(distance * math.cos(angle)), round(distance * math.sin(angle))))
    return polygon(ring)


def sliver(k: int, length: int) -> list[tuple[int, int]]:
    """A long thin quadrilateral askew, the k-th of a row."""
    x = 12 * k
    return [(x, -x), (x + length, length - x), (x + length + 4, length - x), (x + 4, -x)]


def thin_holes(count: int) -> str:
    """A polygon of so many long thin holes askew."""
    length, reach = 12 * count, 60 * count
    outer = [(-reach, -reach), (reach, -reach), (reach, reach), (-reach, reach)]
    return polygon(outer, *(sliver(k, length) for k in range(count)))


def holes_of_one_box(count: int) -> str:
    """The same of holes so long that their bounds are almost equal."""
    length, reach = 1_000 * count, 1_100 * count
    outer = [(-reach, -reach), (reach, -reach), (reach, reach), (-reach, reach)]
    return polygon(outer, *(sliver(k, length) for k in range(count)))


def thin_polygons(count: int) -> str:
    """So many long thin polygons askew."""
    return polygons([[sliver(k, 12 * count)] for k in range(count)])


def thin_holes_twice(count: int) -> tuple[str, str]:
    """The polygon of long thin holes, related to itself."""
    return twice(thin_holes(count))


def slivers_of_which_two_touch(count: int) -> list[list[tuple[int, int]]]:
    """Long thin quadrilaterals askew, of which the last has a corner on the one before it."""
    length, x = 12 * count, 12 * (count - 1)
    last = [(x - 7, 13 - x), *sliver(count - 1, length)[1:]]
    return [sliver(k, length) for k in range(count - 1)] + [last]


def holes_of_which_two_touch(count: int) -> str:
    """A polygon of long thin holes, of which the last two share a point: a fault that is found last."""
    reach = 60 * count
    outer = [(-reach, -reach), (reach, -reach), (reach, reach), (-reach, reach)]
    return polygon(outer, *slivers_of_which_two_touch(count))


def polygons_of_which_two_touch(count: int) -> str:
    """The same of long thin polygons."""
    return polygons([[ring] for ring in slivers_of_which_two_touch(count)])


def equal_stars(count: int) -> tuple[str, str]:
    """A star, and the same from another start on."""
    return polygon(star_ring(count)), polygon(star_ring(count, count // 3))


def ring_and_star(count: int) -> tuple[str, str]:
    """The ring of a star as a line, and the star."""
    ring = star_ring(count)
    return line(ring + ring[:1]), polygon(ring)


def chevron(k: int, reach: int) -> list[tuple[int, int]]:
    """A chevron, the k-th of a nest."""
    y = 4 * k
    return [(-reach, y), (0, y + reach), (reach, y), (reach, y + 2), (0, y + reach + 2), (-reach, y + 2)]


def ell(at: int, count: int) -> list[tuple[int, int]]:
    """The corners of one of so many L-shapes, each in the corner of the one before it."""
    low, far = 3 * at, 3 * count + 9
    return [(low, low), (far, low), (far, low + 1), (low + 1, low + 1), (low + 1, far), (low, far)]


def ells(count: int) -> str:
    """So many L-shapes, each in the corner of the one before it."""
    return polygons([[ell(at, count)] for at in range(count)])


def holes_of_ells(count: int) -> str:
    """A polygon whose holes are so many L-shapes, each in the corner of the one before it."""
    far = 3 * count + 12
    return polygon([(-3, -3), (far, -3), (far, far), (-3, far)], *(ell(at, count) for at in range(count)))


def nested_chevrons(count: int) -> str:
    """So many chevrons, each in the next."""
    return polygons([[chevron(k, 8 * count)] for k in range(count)])


def nested_chevrons_twice(count: int) -> tuple[str, str]:
    """The same, related to itself."""
    return twice(nested_chevrons(count))


def comb_of(teeth: Sequence[list[tuple[int, int]]], back: int) -> str:
    """A comb of teeth, each over the one before it, on an upright back to the left of them."""
    ring = [position for tooth in teeth for position in tooth]
    return polygon(ring + [(back, ring[-1][1]), (back, ring[0][1])])


def upright_rows(count: int, reach: int) -> list[list[tuple[int, int]]]:
    """Upright rows across a shape of this reach, from below it to above it. No edge of the shapes here lies on one of them."""
    step = 2 * reach // count
    return [[(x, -3 * reach), (x, 3 * reach)] for x in (step * k - reach + 1 for k in range(count))]


def mown(rows: Sequence[list[tuple[int, int]]]) -> str:
    """One line of rows, of which every second one goes back."""
    return line([position for k, row in enumerate(rows) for position in row[:: -1 if k % 2 else 1]])


def chevron_comb_and_rows(count: int) -> tuple[str, str]:
    """A comb of chevrons, and a line of as many upright rows across it."""
    reach = 8 * count
    return comb_of([chevron(k, reach) for k in range(count)], -reach - 4), mown(upright_rows(count, reach))


def chevron_comb_and_rows_backwards(count: int) -> tuple[str, str]:
    """The same backwards."""
    return both_backwards(chevron_comb_and_rows(count))


def rows_and_chevron_comb(count: int) -> tuple[str, str]:
    """The same the other way round."""
    return chevron_comb_and_rows(count)[::-1]


def nested_chevrons_and_streets(count: int) -> tuple[str, str]:
    """Chevrons, each in the next, and as many upright streets across them."""
    return nested_chevrons(count), lines(upright_rows(count, 8 * count))


def nested_chevrons_and_streets_backwards(count: int) -> tuple[str, str]:
    """The same backwards."""
    return both_backwards(nested_chevrons_and_streets(count))


def level_comb_and_rows(count: int) -> tuple[str, str]:
    """A comb of level teeth, and a line of as many upright rows through all of them."""
    reach = 8 * count
    teeth = [[(-reach, y), (reach, y), (reach, y + 2), (-reach, y + 2)] for y in range(0, 4 * count, 4)]
    return comb_of(teeth, -reach - 4), mown(upright_rows(count, reach))


def edge_and_chevrons(count: int) -> tuple[str, str]:
    """A line of one edge, and the chevrons of a nest as lines, all of which it crosses."""
    reach = 8 * count
    return line([(-reach, 4 * count + 1), (reach, 4 * count + 2)]), lines([chevron(k, reach)[:3] for k in range(count)])


def edge_and_chevrons_backwards(count: int) -> tuple[str, str]:
    """The same backwards."""
    return both_backwards(edge_and_chevrons(count))


def edge_and_scribble(count: int) -> tuple[str, str]:
    """A line of one edge, and a scribble across it."""
    return line([(-SPAN, 1), (SPAN, 2)]), scribble(count)[0]


def edge_and_spiral_askew(count: int) -> tuple[str, str]:
    """A line of one edge, and a spiral askew across it."""
    return line([(-4 * count, 1), (4 * count, 2)]), spiral_askew(count)


def chevrons_and_touching_lines(count: int) -> tuple[str, str]:
    """Lines of chevrons and of stubs, and level lines across the chevrons, of which each begins where a stub ends."""
    reach, heights = 8 * count, range(count)
    stubs = [[(-2 * reach, 4 * count + k), (-reach, 4 * count + k)] for k in heights]
    level = [[(-reach, 4 * count + k), (2 * reach, 4 * count + k)] for k in heights]
    return lines([chevron(k, reach)[:3] for k in heights] + stubs), lines(level)


def chevrons_and_touching_lines_backwards(count: int) -> tuple[str, str]:
    """The same backwards."""
    return both_backwards(chevrons_and_touching_lines(count))


def level_lines_and_upright(count: int) -> tuple[str, str]:
    """Level lines, and a line that goes to and fro on the upright through their ends."""
    chance = random.Random(count)
    level = [[(0, k), (9, k)] for k in range(count)]
    return lines(level), line([(0, chance.randint(-1, count)) for _ in range(count)])


def frame(k: int) -> list[list[tuple[int, int]]]:
    """A square frame round smaller ones."""
    outer, inner = 4 * k + 4, 4 * k + 2
    return [[(-r, -r), (r, -r), (r, r), (-r, r)] for r in (outer, inner)]


def nested_frames(count: int) -> str:
    """Frames in frames: the bounds of each hold those of all before it."""
    return polygons([frame(k) for k in range(count // 2)])


def nested_frames_twice(count: int) -> tuple[str, str]:
    """The same, related to itself."""
    return twice(nested_frames(count))


def nested_frames_and_bars(count: int) -> tuple[str, str]:
    """Frames in frames, and as many thin upright bars across them."""
    bars = [[row[0], (row[0][0] + 2, row[0][1]), (row[1][0] + 2, row[1][1]), row[1]] for row in upright_rows(count, 4 * count)]
    return nested_frames(2 * count), polygons([[bar] for bar in bars])


def holes_in_spiral(count: int) -> str:
    """A spiral with a hole in each of its corners, so that each hole is looked for in the whole spiral."""
    ring = spiral_ring(count * 6, 64)
    holes = []
    for (x, y), (u, v) in zip(ring[1 : count // 2], ring[::-1][1 : count // 2]):
        a, b = (x + u) // 2, (y + v) // 2
        holes.append([(a - 1, b - 1), (a + 1, b - 1), (a + 1, b + 1), (a - 1, b + 1)])
    return polygon(ring, *holes)


def spiral_ring(count: int, pitch: int = 8) -> list[tuple[int, int]]:
    """A band that winds outwards at right angles."""
    corners, x, y = [(0, 0)], 0, 0
    for k in range(count // 2 - 1):
        across, up = ((1, 0), (0, 1), (-1, 0), (0, -1))[k % 4]
        length = pitch * (k // 2 + 1)
        x, y = x + across * length, y + up * length
        corners.append((x, y))
    left, right, normals = [], [], ((0, 1), (-1, 0), (0, -1), (1, 0))
    for k, (x, y) in enumerate(corners):
        turns = {max(k - 1, 0) % 4, min(k, len(corners) - 2) % 4}
        dx, dy = (sum(normals[t][axis] for t in turns) for axis in (0, 1))
        left.append((x + pitch // 4 * dx, y + pitch // 4 * dy))
        right.append((x - pitch // 4 * dx, y - pitch // 4 * dy))
    return left + right[::-1]


def spiral(count: int) -> str:
    """A polygon that winds outwards."""
    return polygon(spiral_ring(count))


def spiral_twice(count: int) -> tuple[str, str]:
    """The same, related to itself."""
    return twice(spiral(count))


def spiral_askew(count: int) -> str:
    """The same, turned by half a right angle, so that bounds overlap."""
    return polygon([(x - y, x + y) for x, y in spiral_ring(count)])


def spiral_and_streets(count: int) -> tuple[str, str]:
    """A spiral of four times as many positions as there are upright streets across it."""
    return spiral(4 * count), lines(upright_rows(count, 4 * count))


def spiral_and_streets_backwards(count: int) -> tuple[str, str]:
    """The same backwards."""
    return both_backwards(spiral_and_streets(count))


def odd_spokes(count: int) -> tuple[str, str]:
    """An odd number of lines from one point, and the same backwards."""
    ring = star_ring(count | 1)
    return lines([[(0, 0), end] for end in ring]), lines([[end, (0, 0)] for end in ring])


def hatch(count: int, across: int) -> str:
    """Parallel lines askew."""
    step, reach = 4, 4 * count
    return lines([[(step * k + across, -step * k), (step * k + across + reach, reach - step * k)] for k in range(count)])


def hatches(count: int) -> tuple[str, str]:
    """Two hatches, the lines of the one between those of the other."""
    return hatch(count, 0), hatch(count, 2)


def hatches_across(count: int) -> tuple[str, str]:
    """Two grids of which the lines of one cross all those of the other."""
    step = 2 * SPAN // count
    level = [[(-SPAN - 9, -SPAN + step * k), (SPAN + 9, -SPAN + step * k)] for k in range(count)]
    return lines(level), lines([[(y + 1, x) for x, y in street] for street in level])


def comb_ring(count: int, up: int) -> list[tuple[int, int]]:
    """A comb with teeth askew, between which those of another fit."""
    teeth, reach = count // 4, 8 * count
    ring = []
    for k in range(teeth):
        x, y = 8 * k, -8 * k
        tip = reach if up else -reach
        ring += [(x, y), (x + tip, y + tip), (x + tip + 2, y + tip - 2), (x + 2, y - 2)]
    return ring + ([(8 * teeth - 4 * reach, -8 * teeth - 4 * reach)] if up else [(8 * teeth + 4 * reach, 4 * reach - 8 * teeth)])


def combs_askew(count: int) -> tuple[str, str]:
    """Two combs with teeth askew that go into one another and don't touch."""
    upper = comb_ring(count, True)
    lower = [(x + 8 * count + 24, y + 8 * count + 16) for x, y in comb_ring(count, False)]
    return polygon(upper), polygon(lower)


def combs_across(count: int) -> tuple[str, str]:
    """Two combs of so many teeth, each tooth of the one across all of the other."""
    return straight_combs(count)


def zigzags_beside(count: int) -> tuple[str, str]:
    """Two lines that go to and fro askew, side by side, which don't meet."""
    ring = zigzag_ring(2 * count)
    return line(ring[:count]), line([(x + 1, y + 1) for x, y in ring[:count]])


def zigzag_twice(count: int) -> tuple[str, str]:
    """A polygon that goes to and fro askew, related to itself."""
    return twice(zigzag(count))


def one_point_often(count: int) -> tuple[str, str]:
    """A line that comes back to one point again and again, and its spokes as a star of lines."""
    ring = star_ring(min(count // 2, 1_000))
    visits = [position for end in ring for position in ((0, 0), end)]
    return line(visits), lines([[(0, 0), end] for end in ring])


def cut_square(count: int) -> tuple[str, str]:
    """A square with many positions on its sides, and the square of four."""
    per, step = count // 4, 4
    reach = per * step
    sides = [(step * k, 0) for k in range(per)] + [(reach, step * k) for k in range(per)]
    sides += [(reach - step * k, reach) for k in range(per)] + [(0, reach - step * k) for k in range(per)]
    return polygon(sides), polygon([(0, 0), (reach, 0), (reach, reach), (0, reach)])


def loops_of_one_ring(count: int) -> tuple[str, str]:
    """The lines of a circle's ring, of which each goes round half of it."""
    ring = [(round(SPAN * math.cos(2 * math.pi * k / 60)), round(SPAN * math.sin(2 * math.pi * k / 60))) for k in range(60)]
    halves = [[ring[(k + i) % 60] for i in range(31)] for k in range(count // 31)]
    return twice(lines(halves))


def teeth_on_one_edge(count: int) -> tuple[str, str]:
    """A line that goes up and down onto one long edge, and the edge."""
    return line([(2 * k, 5 * (k % 2)) for k in range(count)]), line([(0, 0), (2 * count, 0)])


def tips_to_tips(count: int) -> tuple[str, ...]:
    """Two saws of which each tip of the one is on a tip of the other."""
    tips = [(4 * k, 5 * (k % 2)) for k in range(count)]
    return tuple(polygon([(x, sign * y) for x, y in tips] + [(4 * count, sign * 9), (0, sign * 9)]) for sign in (1, -1))


def teeth_under_one_edge(count: int) -> tuple[str, str]:
    """A comb of so many positions, and a line over all of its teeth."""
    teeth = [(4 * k + step, up) for k in range(count // 4) for step, up in ((0, 0), (0, 90), (2, 90), (2, 0))]
    return polygon(teeth + [(count, 0), (count, -9), (0, -9)]), line([(-1, 20), (count, 70)])


def stairs_across(count: int) -> tuple[str, str]:
    """Two stairs that cross at each step."""
    stairs = [(4 * (k // 2 + k % 2), 4 * (k // 2)) for k in range(count)]
    return line(stairs), line([(x - 1, y + 1) for x, y in stairs])


def points_on_sides(count: int) -> tuple[str, str]:
    """The positions on the sides of a square as points, in any order, and the square with all of them."""
    cut, _ = cut_square(count)
    sides = [(int(x), int(y)) for x, y in (it.split() for it in cut[len("POLYGON((") : -len("))")].split(",")[:-1])]
    return points(random.Random(count).sample(sides, len(sides))), cut


def squares_in_rows(count: int, size: int, at: int = 0) -> list[list[tuple[int, int]]]:
    """The rings of squares in rows, as far apart as they are wide."""
    per_row = math.isqrt(count) + 1
    corners = ((2 * size * x + at, 2 * size * y + at) for y, x in (divmod(k, per_row) for k in range(count)))
    return [[(x, y), (x + size, y), (x + size, y + size), (x, y + size)] for x, y in corners]


def corners_to_corners(count: int) -> tuple[str, ...]:
    """Squares, and squares between them that touch them in their corners."""
    return tuple(polygons([[ring] for ring in squares_in_rows(count, 4, at)]) for at in (0, 4))


def points_in_holes(count: int) -> tuple[str, str]:
    """A point in each hole of a polygon, and the polygon."""
    holes = squares_in_rows(count, 4)
    reach = 9 * (math.isqrt(count) + 2)
    around = [(-9, -9), (reach, -9), (reach, reach), (-9, reach)]
    return points([(x + 2, y + 2) for (x, y), *_ in holes]), polygon(around, *holes)


def closed_lines(count: int) -> str:
    """Closed lines, each round those before it, as lines of equal height are on a map."""
    return lines([[(-r, -r), (r, -r), (r, r), (-r, r), (-r, -r)] for r in range(4, 4 * count + 4, 4)])


def rings_round_one_point(count: int) -> tuple[str, str]:
    """Such lines to themselves."""
    return twice(closed_lines(count))


def point_in_closed_lines(count: int) -> tuple[str, str]:
    """A point, and such lines round it."""
    return points([(1, 2)]), closed_lines(count)


def line_in_closed_lines(count: int) -> tuple[str, str]:
    """A short line, and such lines round it."""
    return line([(1, 2), (2, 3)]), closed_lines(count)


def spirals_along(count: int) -> tuple[str, str]:
    """Two spirals of which each is in the other's turns, so that they touch all along."""
    ring = spiral_ring(count)
    return polygon(ring), polygon([(x + 4, y + 4) for x, y in ring])


def one_position_again(count: int) -> tuple[str, str]:
    """A line that stays in one position for so long."""
    return twice(line([(0, 0)] * count + [(5, 3)]))


def long_numbers(count: int) -> str:
    """Two points whose numbers have so many zeros in front and behind the point."""
    zeros = "0" * count
    return f"MULTIPOINT({zeros}7 -{zeros}1.{zeros},+{zeros}.{zeros} 3.{zeros})"


def blanks(count: int) -> str:
    """A point with so many blanks wherever they may be."""
    blank = " " * count
    return f"{blank}POINT{blank}({blank}1{blank}2{blank}){blank}"
