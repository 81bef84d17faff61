"""Queries of sfq-ask with clauses that sfq's SELECT doesn't have: SQLite runs them, and the answer is in the units of the source."""
import os
import subprocess
import tempfile
import unittest
from unittest import mock

from made_libraries import over_library
from support import needs, python_command, python_with, write

import bindings
import library
from import_calls import WithImports, feature, square
from sfq.commands import in_sqlite
from sfq.commands.conditions import Conditions

# A Python whose module of SQLite loads extensions, and that has GDAL.
LOADING = python_with("sqlite3; sqlite3.Connection.enable_load_extension; import osgeo.ogr")
NOTE = "sfq-ask: note: SQLite ran the query over the tables and relations of sfq, which has no {}; what it computes of coordinates and of columns that count steps is in steps\n"


@over_library
class Words(unittest.TestCase):
    """What a query is for SQLite for."""

    class Folder:
        @staticmethod
        def layers_of(query):
            return {f"t{it}": None for it in range(query.count("JOIN") + 1)}

    def test_words(self):
        for query, wanted in (
            ("SELECT a FROM t", ""), ("SELECT a FROM t ORDER BYE b", ""), ("SELECT a FROM t ORDER BY b", "ORDER BY"), ("SELECT sum(a) AS b FROM t GROUP BY c order by d", "GROUP BY"),
            ("SELECT min(a) FROM t", "MIN"), ("SELECT a AS b FROM t", "names of items by AS"), ("SELECT a FROM t AS b", ""), ("SELECT a FROM t WHERE b = 'ORDER BY'", ""),
            ("SELECT a FROM t JOIN u ON x JOIN v ON y", "joins of 3 tables"), ("SELECT DISTINCT a FROM t", "DISTINCT"),
        ):
            self.assertEqual(in_sqlite.wanted(Conditions(query, self.Folder())), wanted, query)


@unittest.skipUnless(LOADING, "needs the package python3-gdal, and a Python that loads extensions of SQLite")
@needs("libsqlite3-dev", "cc")
class Asked(WithImports):
    """Over an import, and the module that is compiled here."""

    @classmethod
    def setUpClass(cls):
        super().setUpClass()
        if not bindings.has_sqlite():
            cls.tearDownClass()
            raise unittest.SkipTest("needs the package libsqlite3-dev")
        cls.libraries = tempfile.mkdtemp(dir=cls.room)
        for it in library.ALL:
            os.symlink(it.shared, f"{cls.libraries}/{it.soname}")
        cls.bare = tempfile.mkdtemp(dir=cls.room)
        for it in library.ALL:
            os.symlink(it.shared, f"{cls.bare}/{it.soname}")
        bindings.make_sqlite(f"{cls.libraries}/{in_sqlite.MODULE}")

    def setUp(self):
        wells = [feature(("Point", [100 + it, 50.5]), kind="ab"[it % 2], depth=it * 1.5) for it in range(5)]
        areas = [feature(("Polygon", square(99.5 + 3 * it, 50, 3)), name=f"n{it}") for it in range(2)]
        self.folder = f"{tempfile.mkdtemp(dir=self.room)}/out"
        ran = self.command("sfq-import", self.source(wells, "well"), self.source(areas, "area"), "--grid", "0.5", "--origin", "100,-50", "--scale", "depth=0.5",
                           "--out", self.folder)
        self.assertEqual(ran.returncode, 0, ran.stderr)

    def ask(self, query, *words, libraries=None):
        known = {**os.environ, "SFQ_LIBRARY": f"{libraries or self.libraries}/{library.NAME}", "PYTHONDONTWRITEBYTECODE": "1"}
        ran = subprocess.run([*python_command(LOADING, "sfq-ask"), self.folder, query, *words], env=known, capture_output=True, text=True)
        return ran.stdout, ran.stderr, ran.returncode

    def test_order_and_groups(self):
        for query, wanted, what in (
            ("SELECT fid, depth, geom FROM well ORDER BY depth DESC LIMIT 2", "fid,depth,geom\n4,6.0,POINT(104.0 50.5)\n3,4.5,POINT(103.0 50.5)\n", "ORDER BY"),
            ("SELECT kind, count(*) AS n FROM well GROUP BY kind", "kind,n\na,3\nb,2\n", "GROUP BY"),
            ("SELECT a.name, count(*) AS n FROM area a JOIN well w ON ST_Contains(a.geom, w.geom) GROUP BY a.fid ORDER BY n DESC", "name,n\nn0,3\nn1,2\n", "GROUP BY"),
            ("SELECT max(depth) AS most FROM well", "most\n12\n", "MAX"),
            ("SELECT fid FROM well WHERE ST_Within(geom, ST_GeomFromText('POLYGON((102.5 50,109 50,109 51,102.5 51,102.5 50))')) ORDER BY fid DESC", "fid\n4\n3\n", "ORDER BY"),
            ("SELECT a.fid FROM area a JOIN well w ON ST_Contains(a.geom, w.geom) JOIN well v ON ST_Equals(v.geom, w.geom) WHERE w.kind = 'b'", "fid\n0\n1\n", "joins of 3 tables"),
            ("SELECT geom AS g FROM well ORDER BY fid LIMIT 1", "g\nPOINT(100.0 50.5)\n", "ORDER BY"),
        ):
            self.assertEqual(self.ask(query), (wanted, NOTE.format(what), 0), query)

    def test_formats(self):
        out, _, status = self.ask("SELECT fid, geom FROM well ORDER BY depth DESC LIMIT 1", "--out", "geojson")
        self.assertIn('"geometry":{"type":"Point","coordinates":[104.0,50.5]}', out)
        self.assertEqual(status, 0)
        self.assertEqual(self.ask("SELECT fid, kind FROM well ORDER BY fid LIMIT 1", "--out", "json")[0], '[{"fid":0,"kind":"a"}]\n')

    def test_what_is_refused(self):
        for query, said in (
            ("SELECT nope FROM well ORDER BY fid", "sfq-ask: SQLite, which has ORDER BY: no such column: nope\n"),
            ("SELECT fid FROM well ORDER BY", "sfq-ask: SQLite, which has ORDER BY: incomplete input\n"),
        ):
            self.assertEqual(self.ask(query), ("", said, 5))
        out, err, status = self.ask("SELECT fid FROM well WHERE")
        self.assertEqual((out, status, "SQLite" in err), ("", 5, False))

    def test_a_module_in_the_working_folder_is_not_loaded(self):
        with mock.patch.object(in_sqlite.library, "places", lambda name: ("/nowhere/sfq0.so", name)), tempfile.TemporaryDirectory() as room:
            before = os.getcwd()
            os.chdir(room)
            self.addCleanup(os.chdir, before)
            write(f"{room}/{in_sqlite.MODULE}", "")
            self.assertIsNone(in_sqlite.module())

    def test_without_the_module(self):
        out, err, status = self.ask("SELECT fid FROM well ORDER BY fid", libraries=self.bare)
        self.assertEqual((out, status), ("", 5))
        self.assertTrue(err.startswith("sfq: Q2 at 27\n"), err)
        self.assertIn("sfq-ask: SQLite's module has ORDER BY, and isn't there: ", err)


if __name__ == "__main__":
    unittest.main()
