"""The bad inputs of joins: tables whose rows are all near one another, have NULL or one value, or lie against the order of an index.

Each function takes a number of rows, and returns the tables, the query and the peers that can run it. Chance is seeded by the
number of rows.
"""

import math
import random
from typing import Callable, NamedTuple, Optional, Sequence

from bad_shapes import closed_lines, lines, polygon, scribble, squares_in_rows, star_ring

SPAN = 1_000_000


class Tables(NamedTuple):
    """The texts of two tables' rows behind their keys, the columns of both, and the query; a peer that is asked the same."""

    first: list[str]
    second: list[str]
    columns: str
    query: str
    # The predicate that GEOS and SpatiaLite are asked for, empty where `sqlite3` runs the query itself, None where no peer can.
    predicate: Optional[str] = ""
    # Whether keys go down from record to record.
    is_descending: bool = False
    # Names in the headers that the schema lacks.
    ignored: tuple[str, ...] = ()


def of_shapes(first: list[str], second: list[str], predicate: str = "intersects", wanted: str = "a.id, b.id", more: str = "") -> Tables:
    """A join of two lists of geometries by a predicate."""
    condition = f"ST_{predicate.capitalize()}(a.geom, b.geom)"
    query = f"SELECT {wanted} FROM first a JOIN second b ON {condition}{more}"
    return Tables(first, second, "geom GEOMETRY", query, predicate)


def of_values(first: list[str], second: list[str], condition: str) -> Tables:
    """A count of the pairs of rows of a number and a text that meet a condition."""
    query = f"SELECT COUNT(*) FROM first a JOIN second b ON {condition}"
    return Tables(first, second, "number INTEGER, name TEXT", query)


def point(x: int, y: int) -> str:
    """The text of a point."""
    return f"POINT({x} {y})"


def box(x: int, y: int, across: int, up: int) -> str:
    """The text of a rectangle from its lower left corner on."""
    return f'"POLYGON(({x} {y},{x + across} {y},{x + across} {y + up},{x} {y + up},{x} {y}))"'


def edge(x: int, y: int, across: int, up: int) -> str:
    """The text of a line of one edge."""
    return f'"LINESTRING({x} {y},{x + across} {y + up})"'


def scattered(count: int, shape: Callable[..., str], wide: int = SPAN, high: int = SPAN, seed: int = 0) -> list[str]:
    """So many shapes at positions anywhere in a rectangle."""
    chance = random.Random(2 * count + seed)
    return [shape(chance.randint(-wide, wide), chance.randint(-high, high)) for _ in range(count)]


def squares(count: int, **where: int) -> list[str]:
    """Small squares anywhere, of which a few hold a given point."""
    side = max(2, 2 * SPAN // int(count**0.5))
    return scattered(count, lambda x, y: box(x, y, side, side), seed=1, **where)


def with_nulls(texts: list[str], every: int) -> list[str]:
    """The same with NULL in every so manieth row."""
    return ["" if place % every == 0 else text for place, text in enumerate(texts)]


def uniform(count: int) -> Tables:
    """Points and squares anywhere."""
    return of_shapes(scattered(count, point), squares(count))


def null_tenth(count: int) -> Tables:
    """The same, a tenth of both tables NULL."""
    return of_shapes(with_nulls(scattered(count, point), 10), with_nulls(squares(count), 10))


def null_third(count: int) -> Tables:
    """The same, a third of both tables NULL."""
    return of_shapes(with_nulls(scattered(count, point), 3), with_nulls(squares(count), 3))


def null_half_of_first(count: int) -> Tables:
    """The same, half of the first table NULL."""
    return of_shapes(with_nulls(scattered(count, point), 2), squares(count))


def null_half_of_second(count: int) -> Tables:
    """The same, half of the second table NULL."""
    return of_shapes(scattered(count, point), with_nulls(squares(count), 2))


def null_all(count: int) -> Tables:
    """The same, all of both tables NULL."""
    return of_shapes([""] * count, [""] * count)


def empties(count: int) -> Tables:
    """The same, a third of both tables EMPTY."""
    first = [text or "POINT EMPTY" for text in with_nulls(scattered(count, point), 3)]
    return of_shapes(first, [text or "POLYGON EMPTY" for text in with_nulls(squares(count), 3)])


def north_south_band(count: int) -> Tables:
    """Points and squares in a narrow upright band."""
    band = lambda x, y: box(x, y, 9, 9)
    return of_shapes(scattered(count, point, wide=10), scattered(count, band, wide=10, seed=1))


def east_west_band(count: int) -> Tables:
    """Points and squares in a narrow level band."""
    band = lambda x, y: box(x, y, 9, 9)
    return of_shapes(scattered(count, point, high=10), scattered(count, band, high=10, seed=1))


def diagonal_band(count: int) -> Tables:
    """Points and squares along a diagonal."""
    first, second = scattered(count, lambda x, y: point(x, x + y % 9)), scattered(count, lambda x, y: box(x, x + y % 9, 9, 9), seed=1)
    return of_shapes(first, second)


def level_lines(count: int) -> Tables:
    """Points, and lines as wide as all."""
    return of_shapes(scattered(count, point), scattered(count, lambda x, y: edge(-SPAN, y, 2 * SPAN, 0), seed=1))


def upright_lines(count: int) -> Tables:
    """Points, and lines as high as all."""
    return of_shapes(scattered(count, point), scattered(count, lambda x, y: edge(x, -SPAN, 0, 2 * SPAN), seed=1))


def giants_among_dwarfs(count: int) -> Tables:
    """Points, and in every eighth row a line as wide as all, in the other rows small squares."""
    second = squares(count)
    lines = scattered(count, lambda x, y: edge(-SPAN, y, 2 * SPAN - abs(x), 0), seed=2)
    return of_shapes(scattered(count, point), [lines[k] if k % 8 == 0 else text for k, text in enumerate(second)])


def equal_envelopes(count: int) -> Tables:
    """Lines whose envelopes are all one, which meet in their ends alone: each pair is a candidate."""
    first = [f'"LINESTRING(0 0,{k + 1} {2 * SPAN - k},{2 * SPAN} {2 * SPAN})"' for k in range(count)]
    second = [f'"LINESTRING(0 0,{2 * SPAN - k} {k + 1},{2 * SPAN} {2 * SPAN})"' for k in range(count)]
    return of_shapes(first, second, "crosses")


def lines_askew(count: int) -> Tables:
    """Parallel lines askew, as long as all, of which none meets another."""
    first, second = ([edge(8 * k + odd, -8 * k, SPAN, SPAN) for k in range(count)] for odd in (0, 4))
    return of_shapes(first, second)


def concentric(count: int) -> Tables:
    """Rings round one point, those of the one table between those of the other."""

    def ring(r: int) -> str:
        return f'"LINESTRING({-r} {-r},{r} {-r},{r} {r},{-r} {r},{-r} {-r})"'

    return of_shapes([ring(4 * k + 2) for k in range(count)], [ring(4 * k + 4) for k in range(count)], "touches")


def turned_bits(place: int, count: int) -> int:
    """A place with its bits in the other order: neighbours are far from one another."""
    width = max(1, (count - 1).bit_length())
    return int(f"{place:0{width}b}"[::-1], 2)


def keys_against_order(count: int) -> Tables:
    """Points on a level line, whose keys go up as their places turn about."""
    places = [turned_bits(k, count) for k in range(count)]
    return of_shapes([point(9 * at, at % 7) for at in places], [box(9 * at - 1, 0, 3, 7) for at in places[::-1]])


def one_point_apart(count: int) -> tuple[list[str], list[str]]:
    """Points that are all equal, in tables of which the second is the shorter: it is the outer one."""
    return [point(3, 3)] * (count + 1), [point(3, 3)] * count


def count_of_equal_points(count: int) -> Tables:
    """The count of all pairs of equal points."""
    return of_shapes(*one_point_apart(count), wanted="COUNT(*)")


def limit_of_equal_points(count: int) -> Tables:
    """The first of all pairs of equal points."""
    return of_shapes(*one_point_apart(count), more=" LIMIT 1")


def limit_of_a_thousand(count: int) -> Tables:
    """The first thousand of all pairs of equal points."""
    return of_shapes(*one_point_apart(count), more=" LIMIT 1000")


def beside_star(count: int, shape: Callable[..., str]) -> Tables:
    """Small shapes anywhere, and one star of as many positions as there are shapes."""
    ring = [(100 * x, 100 * y) for x, y in star_ring(min(count, 9_998))]
    text = ",".join(f"{x} {y}" for x, y in ring + ring[:1])
    return of_shapes(scattered(count, shape), [f'"POLYGON(({text}))"'])


def short_lines_and_star(count: int) -> Tables:
    """Short lines, and one large star."""
    return beside_star(count, lambda x, y: edge(x, y, 40, 30))


def small_squares_and_star(count: int) -> Tables:
    """Small squares, and one large star."""
    return beside_star(count, lambda x, y: box(x, y, 40, 30))


def small_squares_and_line(count: int) -> Tables:
    """Small squares anywhere, and one line of as many positions, to and fro over all of it."""
    per_row = 1 + math.isqrt(count)
    places = [divmod(k, per_row) for k in range(min(count, 9_999))]
    spots = [(column if row % 2 == 0 else per_row - 1 - column, row) for row, column in places]
    text = ",".join(f"{2 * SPAN * x // per_row - SPAN} {2 * SPAN * y // per_row - SPAN}" for x, y in spots)
    return of_shapes(scattered(count, lambda x, y: box(x, y, 40, 30)), [f'"LINESTRING({text})"'])


def lines_over_teeth(count: int) -> Tables:
    """Lines over 70 teeth of one zigzag of as many positions as there are lines."""
    teeth = min(count, 9_999)
    chance = random.Random(count)
    places = [100 * chance.randrange(max(1, teeth - 70)) for _ in range(count)]
    text = ",".join(f"{100 * k} {k % 2 * 1_000}" for k in range(teeth))
    return of_shapes([edge(x, 500, 7_000, 1) for x in places], [f'"LINESTRING({text})"'])


def lines_over_star(count: int) -> Tables:
    """Lines from side to side of one star, so that their envelopes hold almost all of it."""
    reach = 90 * SPAN // 100
    return beside_star(count, lambda x, y: edge(-reach, min(x, y) * 9 // 10, 2 * reach, abs(x - y) * 9 // 10))


def squares_and_points(count: int) -> Tables:
    """Small squares anywhere, and one MULTIPOINT of as many points."""
    listed = ",".join(f"({x} {y})" for x, y in (text[6:-1].split() for text in scattered(min(count, 10_000), point, seed=1)))
    return of_shapes(scattered(count, lambda x, y: box(x, y, 40, 30)), [f'"MULTIPOINT({listed})"'])


def squares_and_ends(count: int) -> Tables:
    """Small squares anywhere, and one geometry of as many short lines."""
    text = ",".join(scattered(min(count, 1_000), lambda x, y: f"({x} {y},{x + 900} {y + 700})", seed=1))
    return of_shapes(scattered(count, lambda x, y: box(x, y, 40, 30)), [f'"MULTILINESTRING({text})"'])


def squares_and_upright_side(count: int) -> Tables:
    """Small squares anywhere, and one square whose last side is upright and has as many positions."""
    cuts = min(count, 9_995)
    side = ",".join(f"{-SPAN} {SPAN - 2 * SPAN * k // (cuts + 1)}" for k in range(cuts + 1))
    around = f"{-SPAN} {-SPAN},{SPAN} {-SPAN},{SPAN} {SPAN},{side},{-SPAN} {-SPAN}"
    return of_shapes(scattered(count, lambda x, y: box(x, y, 40, 30)), [f'"POLYGON(({around}))"'])


def points_and_holes(count: int) -> Tables:
    """Points anywhere, and one polygon of as many holes."""
    rings = squares_in_rows(min(count, 999), 10_000, 1 - SPAN)
    around = [(-SPAN, -SPAN), (SPAN, -SPAN), (SPAN, SPAN), (-SPAN, SPAN)]
    return of_shapes(scattered(count, point), [f'"{polygon(around, *rings)}"'], "within")


def equal_squares(count: int) -> Tables:
    """One square in every row: each pair is equal. The peers have no prepared geometry for that."""
    rows = [box(0, 0, 9, 9)] * count
    return of_shapes(rows, rows, "equals", "COUNT(*)")._replace(predicate=None)


def points_with_numbers(count: int, per: int) -> Tables:
    """One point in every row, with numbers of which each is in so many rows of both tables, and the pairs of equal numbers."""
    first, second = ([f"POINT(3 3),{place // per}" for place in range(count)] for _ in range(2))
    query = "SELECT COUNT(*) FROM first a JOIN second b ON ST_Intersects(a.geom, b.geom) AND a.number = b.number"
    return Tables(first, second, "geom GEOMETRY, number INTEGER", query, None)


def one_point_and_numbers(count: int) -> Tables:
    """One point in every row, and each number once."""
    return points_with_numbers(count, 1)


def one_point_and_frequent_numbers(count: int) -> Tables:
    """One point in every row, and each number in 65 rows."""
    return points_with_numbers(count, 65)


def nulls_behind_predicate(count: int) -> Tables:
    """A predicate of NULL in every row, behind one that counts."""
    rows = ["POINT(3 3),"] * count
    constant = "ST_Intersects(b.geom, ST_GeomFromText('POINT(3 3)'))"
    query = f"SELECT COUNT(*) FROM first a JOIN second b ON {constant} AND ST_Intersects(a.other, b.other)"
    return Tables(rows, rows, "geom GEOMETRY, other GEOMETRY", query, None)


def points_on_scribble(count: int) -> Tables:
    """Points, and one line from one position anywhere to the next, of as many as it may have at the most."""
    chance = random.Random(count)
    ends = ",".join(f"{chance.randint(-SPAN, SPAN)} {chance.randint(-SPAN, SPAN)}" for _ in range(min(count, 10_000)))
    return of_shapes(scattered(count, point), [f'"LINESTRING({ends})"'])


def edges_and_scribble(count: int) -> Tables:
    """Twenty lines of one edge, and one scribble of so many positions."""
    edges = scattered(20, lambda x, y: edge(-9_000, y, 18_000, 1), high=9_000)
    return of_shapes(edges, [f'"{scribble(count)[0]}"'])


def points_in_closed_lines(count: int) -> Tables:
    """Thirty points, and so many closed lines round them in one geometry."""
    return of_shapes([point(k % 3, k // 3 - 3) for k in range(30)], [f'"{closed_lines(count)}"'], "touches")


def points_beside_closed_lines(count: int) -> Tables:
    """Points anywhere, and 1,000 small closed lines side by side in one geometry."""
    rings = [ring + ring[:1] for ring in squares_in_rows(1_000, 10_000, 1 - SPAN)]
    return of_shapes(scattered(count, point), [f'"{lines(rings)}"'])


def points_and_upright_side(count: int) -> Tables:
    """Points anywhere, and one square whose first side is upright and has as many positions."""
    cuts = min(count, 9_990)
    side = [(-SPAN, SPAN - 2 * SPAN * k // cuts) for k in range(cuts)]
    ring = polygon([*side, (-SPAN, -SPAN), (SPAN, -SPAN), (SPAN, SPAN)])
    return of_shapes(scattered(count, point), [f'"{ring}"'], "within")


def many_predicates(count: int) -> Tables:
    """A join by so many predicates, and as many of its first table and a constant: each is a probe that a plan may make."""
    two = " AND ".join(["ST_Within(a.geom,b.geom)"] * count)
    one = " AND ".join(["ST_Within(a.geom,ST_GeomFromText('POINT EMPTY'))"] * count)
    query = f"SELECT a.id FROM first a, second b WHERE {two} AND {one}"
    return Tables([point(1, 1)], [point(1, 1)], "geom GEOMETRY", query, None)


def numbered(count: int, shift: int = 0, text: str = "name") -> list[str]:
    """Rows of a number and a text, each once, in an order at random."""
    places = list(range(count))
    random.Random(count + shift).shuffle(places)
    return [f"{place + shift},{text}{place + shift}" for place in places]


def equal_numbers(count: int) -> Tables:
    """Equality of two columns of numbers."""
    return of_values(numbered(count), numbered(count, 1), "a.number = b.number")


def equal_texts(count: int) -> Tables:
    """Equality of two columns of texts."""
    return of_values(numbered(count), numbered(count, 1), "a.name = b.name")


def equal_long_texts(count: int) -> Tables:
    """Equality of texts that differ in their last characters."""
    long = "n" * 200
    return of_values(numbered(count, 0, long), numbered(count, 1, long), "a.name = b.name")


def texts_of_quotes(count: int) -> Tables:
    """Equality of texts of quotes, each of which is two in the table."""
    quotes = '""' * 40
    first, second = ([f'7,"{quotes}{row.split(",")[0]}"' for row in numbered(count, shift)] for shift in (0, 1))
    return of_values(first, second, "a.name = b.name")


def equal_keys(count: int) -> Tables:
    """Equality of the keys."""
    return of_values(numbered(count), numbered(count, 1), "a.id = b.id")


def key_and_number(count: int) -> Tables:
    """Equality of a key and a column."""
    return of_values(numbered(count), numbered(count, 1), "a.id = b.number")


def one_value_and_texts(count: int) -> Tables:
    """Two equalities, of which the first is one value in every row."""
    first, second = ([f"7,name{row.split(',')[0]}" for row in numbered(count, shift)] for shift in (0, 1))
    return of_values(first, second, "a.number = b.number AND a.name = b.name")


def one_equality_or_other(count: int) -> Tables:
    """One equality or another."""
    return of_values(numbered(count), numbered(count, 1), "a.number = b.number OR a.name = b.name")


def equality_by_order(count: int) -> Tables:
    """An equality that is written as two comparisons."""
    return of_values(numbered(count), numbered(count, 1), "a.number <= b.number AND a.number >= b.number")


def of_geometries(first: list[str], second: list[str], condition: str) -> Tables:
    """A count of the pairs of rows of a number, a text and a geometry that meet a condition, which no peer is asked."""
    query = f"SELECT COUNT(*) FROM first a JOIN second b ON {condition}"
    return Tables(first, second, "number INTEGER, name TEXT, geom GEOMETRY", query, None)


def spelled(count: int, shift: int = 0) -> list[str]:
    """Rows of a number from 3 on, the text of a point, and the point of another row, each once, in an order at random."""
    places = list(range(count))
    random.Random(count + shift).shuffle(places)
    return [f"{place + 3},{point(place + shift, 1)},{point(place, 1)}" for place in places]


def text_of_inner_geometry(count: int) -> Tables:
    """Equality of a text of the first table with the text of a geometry of the second."""
    return of_geometries(spelled(count), spelled(count, 1), "a.name = ST_AsText(b.geom)")


def dimension_of_outer_geometry(count: int) -> Tables:
    """Equality of the dimension of a geometry of the first table with a number of the second, which none has."""
    return of_geometries(spelled(count), spelled(count, 1), "ST_Dimension(a.geom) = b.number")


def one_row_of_each(count: int) -> Tables:
    """Conditions on each table alone, which one row of each meets."""
    return of_values(numbered(count), numbered(count, 1), "a.number = 3 AND b.number = 5")


def one_row_of_second(count: int) -> Tables:
    """A condition on the second table alone, which one row of it meets."""
    rows = numbered(count)
    return Tables(rows, rows, "number INTEGER, name TEXT", f"SELECT a.id FROM first a, second b WHERE b.name = 'name{count // 2}'")


def some_of_first(count: int) -> Tables:
    """An OR of the first table alone, which two rows of it meet, and an order of two columns."""
    return of_values(numbered(count), numbered(count, 1), "(a.number = 1 OR a.number = 2) AND a.name < b.name")


def texts_behind(count: int, condition: str) -> Tables:
    """Equality of two columns of texts, behind a condition."""
    return of_values(numbered(count), numbered(count, 1), f"{condition} AND a.name = b.name")


def texts_behind_or(count: int) -> Tables:
    """The same behind an OR."""
    return texts_behind(count, "(a.number = 1 OR a.number = 2)")


def texts_behind_not(count: int) -> Tables:
    """The same behind a NOT."""
    return texts_behind(count, "NOT (a.number = 1)")


def texts_behind_null(count: int) -> Tables:
    """The same behind IS NOT NULL, which is a NOT."""
    return texts_behind(count, "a.name IS NOT NULL")


def of_equal_columns(first: list[str], second: list[str], names: Sequence[str]) -> Tables:
    """A count of the pairs of rows that are equal in columns of numbers."""
    condition = " AND ".join(f"a.{name} = b.{name}" for name in names)
    columns = ", ".join(f"{name} INTEGER" for name in names)
    return Tables(first, second, columns, f"SELECT COUNT(*) FROM first a JOIN second b ON {condition}")


def fifth_equality(count: int) -> Tables:
    """Five equalities, of which the fifth alone tells rows apart."""
    rows = [f"7,7,7,7,{place}" for place in range(count)]
    return of_equal_columns(rows, rows, ("number", "c", "d", "e", "f"))


def pairs_of_values(count: int) -> Tables:
    """Two equalities: each value is in as many rows as there are values, and each pair of values in one."""
    side = math.isqrt(count)
    rows = [f"{place % side},{place // side}" for place in range(count)]
    return of_equal_columns(rows, rows, ("number", "c"))


def missing_codes(count: int) -> Tables:
    """Two equalities: of a code that most rows of the second table lack, which have 0 for it, and of a flag."""
    first = [f"{place + 1},{place % 2}" for place in range(count)]
    second = [f"{0 if place % 10 < 6 else place + 1},{place % 2}" for place in range(count)]
    return of_equal_columns(first, second, ("number", "flag"))


def one_key_or_other(count: int) -> Tables:
    """A key that equals one column or another."""
    rows = [f"{(place * 7) % count},{(place * 11) % count}" for place in range(count)]
    query = "SELECT COUNT(*) FROM first a JOIN second b ON a.number = b.id OR a.c = b.id"
    return Tables(rows, rows, "number INTEGER, c INTEGER", query)


def keys_between(count: int) -> Tables:
    """A key between two columns, of which few are."""
    rows = [f"{place},{place + 3}" for place in range(count)]
    query = "SELECT COUNT(*) FROM first a JOIN second b ON b.id >= a.number AND b.id < a.c"
    return Tables(rows, rows, "number INTEGER, c INTEGER", query)


def first_pairs(count: int, condition: str = "") -> Tables:
    """The first pairs of two tables, of which the second has one row less: a plan walks over it first."""
    query = f"SELECT a.id, b.id FROM first a, second b{condition} LIMIT 5"
    return Tables(numbered(count), numbered(count - 1, 1), "number INTEGER, name TEXT", query)


def first_ordered_pairs(count: int) -> Tables:
    """The first pairs whose numbers ascend."""
    return first_pairs(count, " WHERE a.number < b.number")


def first_equal_pairs(count: int) -> Tables:
    """The first pairs of equal numbers, of which there are four."""
    first, second = ([f"{place % 4},name{place}" for place in range(most)] for most in (count, count - 1))
    return first_pairs(count, " WHERE a.number = b.number")._replace(first=first, second=second)


def second_predicate(count: int) -> Tables:
    """Two predicates, the first of lines of which each pair has overlapping envelopes, the second of points of which few are equal."""
    rows = [f'"LINESTRING(0 0,{SPAN} {SPAN - place})",{point(place, 0)}' for place in range(count)]
    query = "SELECT COUNT(*) FROM first a JOIN second b ON ST_Intersects(a.wide, b.wide) AND ST_Equals(a.place, b.place)"
    return Tables(rows, rows, "wide LINESTRING, place POINT", query, None)


def stars(count: int, turn: int = 0) -> list[str]:
    """So many stars of 40 positions, side by side."""
    ring = star_ring(40)
    far = 2 * max(max(abs(x), abs(y)) for x, y in ring)
    return [f'"POLYGON(({",".join(f"{x + far * (place + turn)} {y}" for x, y in ring + ring[:1])}))"' for place in range(count)]


def predicate_or_number(count: int) -> Tables:
    """Other numbers, or a predicate: each pair computes a matrix."""
    rows = [f"{text},{place}" for place, text in enumerate(stars(count))]
    query = "SELECT COUNT(*) FROM first a JOIN second b ON a.number <> b.number OR ST_Touches(a.geom, b.geom)"
    return Tables(rows, rows, "geom POLYGON, number INTEGER", query, None)


def constant_and_number(count: int) -> Tables:
    """A predicate of the first table and a constant, and an equality of which each row of the second table has a partner."""
    first = [f"{text},{place}" for place, text in enumerate(stars(4))]
    second = [f'"POLYGON EMPTY",{place % 4}' for place in range(count)]
    constant = f"ST_Intersects(a.geom, ST_GeomFromText('{stars(1)[0][1:-1]}'))"
    query = f"SELECT COUNT(*) FROM first a JOIN second b ON {constant} AND a.number = b.number"
    return Tables(first, second, "geom POLYGON, number INTEGER", query, None)


def few_texts(count: int) -> Tables:
    """Eight texts in all rows: each row equals an eighth of the other table."""
    rows = [f"{place},name{place % 8}" for place in range(count)]
    return of_values(rows, rows, "a.name = b.name")


def no_numbers(count: int) -> Tables:
    """Equality of two columns of which each is NULL in every row."""
    rows = [f",name{k}" for k in range(count)]
    return of_values(rows, rows, "a.number = b.number")


def keys_downwards(count: int) -> Tables:
    """One table whose keys go down, and a condition on it."""
    query = "SELECT COUNT(*) FROM first a WHERE a.number = 3"
    return Tables(numbered(count), [], "number INTEGER, name TEXT", query, is_descending=True)


def one_long_text(count: int) -> Tables:
    """So many items of one long text."""
    return Tables([f"{'a' * 100_000}"], [], "name TEXT", f"SELECT {','.join(['name'] * count)} FROM first", None)


def constants_and_predicates(count: int) -> Tables:
    """So many predicates of the first table and a constant, and twice as many of both tables: each is a probe that a plan may make."""
    one = " AND ".join(["ST_Within(a.g,ST_GeomFromText('POINT EMPTY'))"] * count)
    two = " AND ".join(["ST_Within(a.g,b.g)"] * (2 * count))
    return Tables([point(1, 1)], [point(1, 1)], "g GEOMETRY", f"SELECT a.id FROM first a, second b WHERE {one} AND {two}", None)


def many_comparisons(count: int) -> Tables:
    """So many conditions on one row, and an OR of as many predicates."""
    query = f"SELECT id FROM first WHERE {' AND '.join(['id=1'] * count)} AND ({' OR '.join(['ST_Touches(g,g)'] * count)})"
    return Tables([point(1, 1)], [], "g GEOMETRY", query, None)


def many_names(count: int) -> Tables:
    """A header of so many names that the schema lacks, and a record of as many empty fields."""
    names = tuple(f"x{place}" for place in range(count))
    return Tables(["7" + "," * count], [], "number INTEGER", "SELECT id FROM first", None, ignored=names)


def many_items(count: int) -> Tables:
    """So many items of one row."""
    query = f"SELECT {','.join(['number'] * count)} FROM first"
    return Tables(["7"], [], "number INTEGER", query, None)
