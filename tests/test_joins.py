"""Random joins of small tables: rows, their order, plans and work have to be those of a model in Python, whichever plan is chosen."""
import functools
import os
import subprocess
import tempfile
import unittest
from collections import Counter

from support import needs_build, write

import repository
from fuzz import joins, outcomes

# How many joins are drawn in the short form, and in the long one. Each is asked twice, with its references exchanged.
FEW, MANY = 200, 2_000
# So many joins find each planted mistake.
ENOUGH = 400
EXPLAINS = ("", "EXPLAIN ", "EXPLAIN ANALYZE ")


def ask(words, folder=None):
    """Runs sfq, and returns its output; what fails is an answer like any other."""
    ran = subprocess.run([repository.PROGRAM, *words], cwd=folder, capture_output=True, text=True, timeout=60)
    return ran.stdout if ran.returncode == 0 and not ran.stderr else f"status {ran.returncode}: {ran.stdout}{ran.stderr}"


@functools.lru_cache(maxsize=None)
def pool():
    """Returns the geometries with their matrices, which sfq itself is asked for: other tests look at them."""
    matrices, count = {}, len(joins.GEOMETRIES)
    for at in range(count):
        for to in range(at, count):
            matrices[at, to] = ask(["relate", joins.GEOMETRIES[at], joins.GEOMETRIES[to]]).strip()
            matrices[to, at] = outcomes.transposed(matrices[at, to])
    return joins.Pool(joins.GEOMETRIES, matrices)


def drawn(seed, count):
    """Draws so many joins, each with the number and the tables that it is of."""
    for number in range(count):
        drawing = joins.Drawing(pool(), f"{seed} {number}")
        for query in drawing.joins():
            yield number, drawing, query


def compare(test, seed, count):
    """Asks so many joins, and compares what sfq writes with the model."""
    model = joins.Model(pool())
    with tempfile.TemporaryDirectory(prefix="sfq-joins-") as room:
        write(f"{room}/schema.sql", joins.SCHEMA)
        asked = None
        for number, drawing, query in drawn(seed, count):
            if asked != number:
                tables = {it: drawing.csv(it) for it in joins.TABLES}
                for name, text in tables.items():
                    write(f"{room}/d/{name}.csv", text)
            asked, meaning = number, model.meaning(query)
            wanted = meaning.rows, meaning.plan, f"{meaning.plan}work {meaning.work}\n"
            written = tuple(ask(["run", "schema.sql", "d", before + query.text], room) for before in EXPLAINS)
            test.assertEqual(written, wanted, f"join {number} of seed {seed}: {query.text}\n{tables}")


class Joins(unittest.TestCase):
    """Some hundred joins, the same in each run."""

    ASKS_PROGRAM = True

    @needs_build
    def test_rows_plans_and_work(self):
        compare(self, 1, FEW)


class LongJoins(unittest.TestCase):
    """Some thousand, others in each run. A failure names the seed."""

    ASKS_PROGRAM = True
    IS_LONG = True

    @needs_build
    def test_rows_plans_and_work(self):
        compare(self, int.from_bytes(os.urandom(4), "big"), MANY)


class ByOuterLoop(joins.Model):
    """Prints rows in the order in which they are found."""

    def ordered(self, query, found):
        return found


class ByNumber(joins.Model):
    """Asks the conjuncts as they are numbered."""

    def filters(self, conjuncts):
        return list(range(1, len(conjuncts) + 1))


class WithoutNulls(joins.Model):
    """Passes over the candidates of a probe by NULL, also where another predicate before it counts."""

    def candidates(self, reference, conjuncts, probe, known):
        is_null = probe and joins.driven(conjuncts[probe - 1], reference.name, next(iter(known), None))[1].of(known) is None
        return [] if is_null else super().candidates(reference, conjuncts, probe, known)


class WithoutEmpties(joins.Model):
    """Takes an empty geometry for one that meets nothing."""

    def candidates(self, reference, conjuncts, probe, known):
        found = super().candidates(reference, conjuncts, probe, known)
        if not probe:
            return found
        column, other = joins.driven(conjuncts[probe - 1], reference.name, next(iter(known), None))
        at = other.of(known)
        return [] if at is not None and self.pool.envelopes[at] is None else found


class WithoutStops(joins.Model):
    """Counts all candidates, whatever LIMIT says."""

    def stops(self, query, plan, found):
        return False


class StopsEarly(joins.Model):
    """Stops at the row of LIMIT also where the outer reference is the second."""

    def stops(self, query, plan, found):
        return not query.is_count and query.limit is not None and len(found) == query.limit


class EqualNulls(joins.Model):
    """Takes an equality of two NULLs for True."""

    def ran(self, query, plan):
        return super().ran(query._replace(conjuncts=[self.loose(it) for it in query.conjuncts]), plan)

    def loose(self, condition):
        is_equality = " = " in condition.text and not condition.relations and not condition.text.startswith("ST_")
        truth = lambda rows: True if condition.truth(rows) is None else condition.truth(rows)
        return condition._replace(truth=truth) if is_equality else condition


class Planted(unittest.TestCase):
    """Mistakes that an engine could make are found out by some join."""

    ASKS_PROGRAM = True

    @needs_build
    def test_mistakes_are_found(self):
        model = joins.Model(pool())
        meanings = [(query, model.meaning(query)) for _, _, query in drawn(4, ENOUGH)]
        for wrong in (ByOuterLoop, ByNumber, WithoutNulls, WithoutEmpties, WithoutStops, StopsEarly, EqualNulls):
            with self.subTest(wrong=wrong.__name__):
                self.assertTrue(any(wrong(pool()).meaning(query) != it for query, it in meanings))

    @needs_build
    def test_every_kind_of_plan_is_chosen(self):
        chosen = Counter()
        for _, _, query in drawn(1, FEW):
            plan = min(joins.lawful_plans(query.references, query.conjuncts), key=lambda it: it.cost)
            chosen[plan.outer, plan.outer_probe > 0, plan.inner_probe > 0] += 1
        for kind in ((0, False, False), (0, False, True), (0, True, False), (0, True, True), (1, False, True), (1, True, True)):
            with self.subTest(kind=kind):
                self.assertGreater(chosen[kind], 1)


class Worked(unittest.TestCase):
    """The model on joins that were worked out by hand."""

    def setUp(self):
        texts = [f"POINT({x} 1)" for x in range(1, 101)] + ["POLYGON((0 0,4 0,4 4,0 4,0 0))", "POLYGON((4 0,8 0,8 4,4 4,4 0))"]
        square = lambda at: 4 * (at - 100)
        cell = lambda at, to: "0FFFFF212" if square(to) < at + 1 < square(to) + 4 else "F0FFFF212" if at + 1 in (square(to), square(to) + 4) else "FF0FFF212"
        self.pool = joins.Pool(texts, {(at, to): cell(at, to) for at in range(100) for to in (100, 101)})
        points, squares = ([{"id": at + 1, "g": place} for at, place in enumerate(it)] for it in (range(100), (100, 101)))
        self.references = joins.Reference("b", "big", points), joins.Reference("s", "sq", squares)

    def query(self, **more):
        """Returns the points that intersect squares, without one of them."""
        point, square = (joins.Geometry(f"{it.name}.g", it.name, "g") for it in self.references)
        truth = lambda rows: self.pool.holds("ST_Intersects", point.of(rows), square.of(rows))
        first = joins.Condition("", truth, (joins.Relation("ST_Intersects", point, square),), is_bare=True)
        second = joins.Condition("", lambda rows: rows["b"]["id"] != 2)
        given = {"limit": None, "is_count": False, **more}
        return joins.Query("", self.references, [first, second], ["b.id", "s.id"], **given)

    def test_costs_of_plans(self):
        query = self.query()
        costs = [it.cost for it in joins.lawful_plans(query.references, query.conjuncts)]
        self.assertEqual(costs, [300, 500, 202, 30])

    def test_rows_plan_and_work(self):
        rows = "b.id,s.id\n1,1\n3,1\n4,1\n4,2\n5,2\n6,2\n7,2\n8,2\n"
        plan = "cost 30\nouter s scan\ninner b probe 1\nfilter 2 1\n"
        self.assertEqual(joins.Model(self.pool).meaning(self.query()), (rows, plan, 8))

    def test_limit_and_count(self):
        model, plan = joins.Model(self.pool), "cost 30\nouter s scan\ninner b probe 1\nfilter 2 1\n"
        self.assertEqual(model.meaning(self.query(limit=1)), ("b.id,s.id\n1,1\n", f"{plan}limit 1\n", 8))
        self.assertEqual(model.meaning(self.query(limit=0)), ("b.id,s.id\n", f"{plan}limit 0\n", 0))
        self.assertEqual(model.meaning(self.query(is_count=True)), ("COUNT(*)\n8\n", f"{plan}count\n", 8))
        counted = self.query(is_count=True, limit=0)
        self.assertEqual(model.meaning(counted), ("COUNT(*)\n", f"{plan}count\nlimit 0\n", 8))

    def test_envelopes(self):
        self.assertIsNone(joins.envelope("LINESTRING EMPTY"))
        self.assertEqual(joins.envelope("LINESTRING(3 -2,-1 5)"), (-1, -2, 3, 5))
        pool = joins.Pool(["POINT EMPTY", "POINT(1 1)", "LINESTRING(1 1,2 2)", "POINT(2 1)", "POINT(3 1)"], {})
        self.assertTrue(pool.meet(0, None) and pool.meet(None, None) and pool.meet(1, 2) and pool.meet(2, 3))
        self.assertFalse(pool.meet(0, 1) or pool.meet(None, 1) or pool.meet(2, 4) or pool.meet(1, 3))

    def test_what_forces_envelopes_to_meet(self):
        for name, forces in (("ST_Equals", True), ("ST_Disjoint", False), ("T********", True), ("FFT******", False), ("****0****", True), ("*****TTTT", False)):
            self.assertEqual(joins.is_forcing(name), forces, name)


if __name__ == "__main__":
    unittest.main()
