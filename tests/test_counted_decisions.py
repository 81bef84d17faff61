"""The work that EXPLAIN ANALYZE prints counts every pair that is decided: gdb stops the program at each entry into the crate that
compares two geometries. The numbers were worked out by hand."""
import json
import os
import re
import subprocess
import tempfile
import unittest
from collections import Counter
from typing import NamedTuple

from support import ROOT, needs, write

import repository
import unproved

SCHEMA = "".join(f"CREATE TABLE {it} (id INTEGER PRIMARY KEY, n INTEGER, geom GEOMETRY);\n" for it in ("spot", "area"))
SPOTS = """id,n,geom
1,1,POINT(1 1)
2,2,POINT(5 5)
3,1,POINT(50 50)
4,2,
5,1,POINT EMPTY
6,,"LINESTRING(0 0,10 10)"
7,3,POINT(60 60)
8,3,POINT(70 70)
"""
AREAS = """id,n,geom
1,1,"POLYGON((0 0,4 0,4 4,0 4,0 0))"
2,1,"POLYGON((3 3,9 3,9 9,3 9,3 3))"
3,2,"POLYGON((50 50,59 50,59 59,50 59,50 50))"
4,,
5,2,POLYGON EMPTY
"""
# Stands for `square` in a query.
SQUARE = "ST_GeomFromText('POLYGON((0 0,10 0,10 10,0 10,0 0))')"
JOIN = "SELECT spot.id, area.id FROM spot JOIN area ON"


class Case(NamedTuple):
    """A query, and how many predicates are decided for it."""

    query: str
    work: int


CASES = (
    # A probe finds the rows 1, 2 and 6. A comparison goes first; it is unknown for row 6.
    Case("SELECT id FROM spot WHERE ST_Intersects(geom, square)", 3),
    Case("SELECT id FROM spot WHERE ST_Intersects(geom, square) AND n = 1", 1),
    Case("SELECT id FROM spot WHERE ST_Relate(geom, square, 'T********') AND n > 1", 1),
    Case("SELECT id FROM spot WHERE id = 2 AND ST_Intersects(geom, square)", 1),
    # Nothing is decided for the NULL of row 4. Row 5 is empty, which is decided.
    Case("SELECT id FROM spot WHERE NOT ST_Within(geom, square)", 7),
    Case("SELECT id FROM spot WHERE n <> 1 AND NOT ST_Disjoint(geom, square)", 3),
    # An OR decides each of its predicates; a filter that isn't true ends the row.
    Case("SELECT id FROM spot WHERE n = 1 OR ST_Touches(geom, square) OR ST_Within(geom, square)", 14),
    Case("SELECT id FROM spot WHERE NOT ST_Disjoint(geom, square) AND NOT ST_Within(geom, square)", 10),
    # The second row is the one with the key 5. COUNT(*) counts all.
    Case("SELECT id FROM spot WHERE NOT ST_Within(geom, square) LIMIT 2", 4),
    Case("SELECT id FROM spot WHERE NOT ST_Within(geom, square) LIMIT 0", 0),
    Case("SELECT COUNT(*) FROM spot WHERE NOT ST_Within(geom, square) LIMIT 2", 7),
    # Five pairs have envelopes that meet, and the two empty geometries have none.
    Case(f"{JOIN} ST_Intersects(spot.geom, area.geom)", 6),
    Case(f"{JOIN} ST_Intersects(spot.geom, area.geom) LIMIT 1", 6),
    Case(f"{JOIN} ST_Intersects(spot.geom, area.geom) WHERE spot.n = area.n AND NOT ST_Within(spot.geom, area.geom)", 2),
    # Of ten pairs with equal numbers two have a NULL.
    Case(f"{JOIN} spot.n = area.n AND NOT ST_Within(spot.geom, area.geom)", 8),
    Case(f"{JOIN} spot.id = area.id WHERE NOT ST_Disjoint(spot.geom, area.geom)", 4),
)
ANALYZE = "EXPLAIN ANALYZE "
# What else the program may ask the crate for: the count, a pattern's text, and whether a predicate forces meeting, on which a plan
# depends.
HARMLESS = re.compile(r"de9im::(work::|text::|meeting::.*::forces_meeting$)")
DECIDES = "de9im::deciding::decide"
# The crates that compare two geometries. Those that answer queries use one of them.
COMPARING = {"orient", "edge_boxes", "noding", "side_labels", "de9im", "witnesses"}
ANSWERING = ("spatial_sql", "planner", "executor", "explain", "query_runs", "statements")


def functions(program):
    """Returns the names of the functions in `de9im` and in what it labels with, but for those that free memory."""
    ran = subprocess.run(["nm", program], capture_output=True, text=True, check=True)
    names = re.findall(r"^\w+ [tT] ((?:de9im|side_labels)::.*)$", ran.stdout, re.M)
    return sorted(it for it in set(names) if "::drop::" not in it and not HARMLESS.match(it))


def entries(calls):
    """Runs calls of sfq under gdb. Returns for each its output, and how often other crates entered each function of the two."""
    program = unproved.kept_program()
    with tempfile.TemporaryDirectory(prefix="sfq-entered-") as room:
        for name, text in (("schema.sql", SCHEMA), ("tables/spot.csv", SPOTS), ("tables/area.csv", AREAS)):
            write(f"{room}/{name}", text)
        asked = {"functions": functions(program), "folder": room, "calls": calls, "answers": f"{room}/answers"}
        write(f"{room}/asked", json.dumps(asked))
        known = {**os.environ, "SFQ_ENTERED": f"{room}/asked", "ASAN_OPTIONS": "detect_leaks=0:allocator_may_return_null=1"}
        words = ["gdb", "-nx", "-batch", "-x", f"{ROOT}/tests/entered_functions.py", program]
        ran = subprocess.run(words, env=known, stdin=subprocess.DEVNULL, capture_output=True, text=True, timeout=300)
        if "ptrace: Operation not permitted" in ran.stderr:
            raise unittest.SkipTest("gdb may not trace a program here")
        if not os.path.exists(f"{room}/answers"):
            raise AssertionError(ran.stdout + ran.stderr)
        answers = json.loads(repository.read(f"{room}/answers"))
    return [(it["output"], from_outside(it["entered"])) for it in answers]


def from_outside(entered):
    """Returns how often each function was entered by those of other crates."""
    counts = Counter()
    for name, caller, count in entered:
        if not caller.startswith(("de9im::", "side_labels::")):
            counts[name] += count
    return counts


def run(query):
    """Returns the words that run a query."""
    return ["run", "schema.sql", "tables", query.replace("square", SQUARE)]


class Work(unittest.TestCase):
    @needs("gdb", "gdb")
    @needs("binutils", "nm")
    def test_each_pair_that_is_decided_is_counted(self):
        forms = [(before, case) for case in CASES for before in ("", ANALYZE)]
        for (before, case), (output, entered) in zip(forms, entries([run(before + case.query) for before, case in forms])):
            with self.subTest(query=before + case.query):
                self.assertEqual(entered, +Counter({DECIDES: case.work}), output)
                self.assertEqual(re.findall(r"^work (\d+)$", output, re.M), [str(case.work)] if before else [])

    @needs("gdb", "gdb")
    @needs("binutils", "nm")
    def test_a_plan_decides_nothing_and_a_matrix_is_seen(self):
        """Where the same device counts none, and where it counts a matrix."""
        found = entries([run(f"EXPLAIN {CASES[0].query}"), ["relate", "POINT(1 1)", "POINT(1 1)"]])
        self.assertEqual([it for it, _ in found], ["cost 4\nouter spot probe 1\nfilter 1\n", "0FFFFFFF2\n"])
        self.assertEqual([it["de9im::relating::relate"] for _, it in found], [0, 1])
        self.assertEqual(found[0][1], Counter())

    def test_queries_compare_geometries_by_one_crate(self):
        crates = repository.read_crates()
        for it in ANSWERING:
            with self.subTest(crate=it):
                self.assertLessEqual(COMPARING & set(crates[it]), {"de9im"})


if __name__ == "__main__":
    unittest.main()
