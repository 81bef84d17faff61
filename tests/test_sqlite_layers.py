"""SQLite's tables over layers that others made: which pairs are in each relation is what GEOS says over the same rounded shapes."""
import csv
import json
import subprocess
import unittest

from support import needs, read

import bindings
from test_import_layers import NC, OLINDA, WithLayers


@needs("sqlite3", "sqlite3")
@unittest.skipUnless(bindings.has_sqlite(), "needs the package libsqlite3-dev")
class InSqlite(WithLayers):
    @classmethod
    def setUpClass(cls):
        super().setUpClass()
        bindings.make_sqlite(f"{cls.room}/sfq0.so")

    def relate_alike(self, folder, one, key, other, other_key):
        """Checks that SQLite and GEOS find the same pairs of two tables in each relation."""
        found = self.geos("relations", folder, one, key, other, other_key)
        self.assertTrue(found["intersects"])
        columns = {it["table"]: it["columns"][-1]["name"] for it in json.loads(read(f"{folder}/grid.json"))["layers"]}
        tables = "".join(f"CREATE VIRTUAL TABLE {it} USING sfq(folder='{folder}', table='{table}');\n" for it, table in (("a", one), ("b", other)))
        for predicate, pairs in found.items():
            query = f"SELECT a.{key}, b.{other_key} FROM a JOIN b ON ST_{predicate}(a.{columns[one]}, b.{columns[other]}) ORDER BY 1, 2;\n"
            words = ["sqlite3", "-batch", "-bail", "-csv", ":memory:"]
            ran = subprocess.run(words, input=f".load {self.room}/sfq0\n{tables}{query}", capture_output=True, text=True)
            self.assertEqual((ran.returncode, ran.stderr), (0, ""), query)
            self.assertEqual([list(map(int, it)) for it in csv.reader(ran.stdout.splitlines())], sorted(pairs), query)

    def test_counties(self):
        self.alone(NC)

    def test_census_tracts(self):
        self.alone(OLINDA)


if __name__ == "__main__":
    unittest.main()
