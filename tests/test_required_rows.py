"""The rows of required_rows.txt are tested, and a row that no test has is found."""
import unittest

from support import read

import required_rows

SCRIPT = """# A comment.

schema
CREATE TABLE t (id INTEGER PRIMARY KEY);

table t
id
{1 to 3 of $
}\\

SELECT id FROM t
id
1
2
3

relate POINT(1 1) | LINESTRING(0 0,2 2)
0FFFFF102

relate LINESTRING(0 0,2 2) | POINT(1 1)
0F1FF0FF2

relate POINT(1 1) | POINT EMPTY
FF0FFFFF2

relate POINT(1 1) | POINT(1 1
! sfq: second W1 at 9
status 5
"""
FILES = ["schema CREATE TABLE t (id INTEGER PRIMARY KEY);", "table t id\\n1\\n2\\n3"]


class RequiredRows(unittest.TestCase):
    """Each line of the list, and a small list over a small script."""

    def missing(self, *lines):
        files = {
            "library": [("one_tests.rt", "fn of_one(rt: HostRuntime) {}\n")],
            "example": [("lib.rt", "ensures { 1 }"), ("lib.rt", "ensures { 2 }")],
        }
        tests = required_rows.Tests(required_rows.rows_of(SCRIPT), files)
        return required_rows.missing(lines, tests)

    def test_no_row_is_missing(self):
        lines = read(required_rows.LIST).splitlines()
        self.assertGreater(len(lines), 200)
        self.assertEqual(required_rows.missing(lines, required_rows.all_tests()), [])

    def test_what_a_script_has_is_found(self):
        self.assertEqual(self.missing(*FILES, "SELECT id FROM t => id\\n{1 to 3 of $\\n}\\"), [])
        self.assertEqual(self.missing("pair POINT(1 1) | LINESTRING(0 0,2 2) => 0FFFFF102"), [])
        self.assertEqual(self.missing("relate POINT(1 1) | POINT(1 1 => ! sfq: second W1 at 9\\nstatus 5"), [])
        self.assertEqual(self.missing("# A comment.", "", "library one_tests.rt: fn of_one("), [])
        self.assertEqual(self.missing("example lib.rt: ensures { 1 }", "example lib.rt: ensures { 2 }"), [])

    def test_what_no_script_has_is_missing(self):
        for files, line in [
            (FILES, "SELECT id FROM u => id\\n1\\n2\\n3"),
            (FILES, "SELECT id FROM t => id\\n1\\n2"),
            ([FILES[0], "table t id\\n1\\n2"], "SELECT id FROM t => id\\n1\\n2\\n3"),
            ([FILES[0] + " -- all", FILES[1]], "SELECT id FROM t => id\\n1\\n2\\n3"),
            ([], "pair POINT(1 1) | POINT(1 1) => 0FFFFFFF2"),
            ([], "pair POINT(1 1) | POINT EMPTY => FF0FFFFF2"),
            ([], "pair POINT(1 1) | LINESTRING(0 0,2 2) => FFFFFF102"),
            ([], "library one_tests.rt: fn of_two("),
            ([], "library two_tests.rt: fn of_one("),
            ([], "library one_tests.rt: "),
            ([], "example lib.rt: ensures { 3 }"),
            ([], "system lib.rt: ensures { 1 }"),
            ([], "a line of no kind"),
        ]:
            with self.subTest(line=line):
                self.assertEqual(self.missing(*files, line), [line])


if __name__ == "__main__":
    unittest.main()
