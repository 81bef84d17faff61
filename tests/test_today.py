"""What README, docs/WRONG-ELSEWHERE.md and docs/AUDIT.md say of newer engines, asked of those in a folder that tools/peer_folder.py made.

SFQ_PEERS names the folder, as in `SFQ_PEERS=DIR ./test test_today`. Without it the tests are skipped: the gate uses no suite that
changes from day to day. Each test prints the versions of the engines that it asks.
"""
import os
import re
import subprocess
import sys
import unittest

from support import ROOT, read

import peer_folder
import test_audit
from sfq_audit import predicates

FOLDER = os.environ.get("SFQ_PEERS", "")
PAGE = f"{ROOT}/docs/WRONG-ELSEWHERE.md"
# The packages whose versions are printed first: the pages name these engines.
PACKAGES = {
    "libgeos-dev": "GEOS", "python3-shapely": "shapely", "python3-geopandas": "GeoPandas", "libsqlite3-mod-spatialite": "SpatiaLite",
    "postgresql-postgis": "PostGIS", "libjts-java": "JTS", "python3-gdal": "GDAL",
}  # fmt: skip
PYTHON = ["python3", "-B", "-W", "ignore", "-m", "sfq_audit.engines"]
JAVA = ["-cp", "/usr/share/java/jts-core.jar", f"{ROOT}/bindings/python/sfq_audit/AskJts.java"]
# Starts a server of PostgreSQL in the folder, asks it about the pairs on standard input, and stops it.
POSTGIS = r"""
set -e
bin=$(ls -d /usr/lib/postgresql/*/bin 2>/dev/null | tail -n 1)
[ -n "$bin" ] && [ -e /usr/share/postgresql/*/extension/postgis.control ] || { echo "! the package postgresql-postgis"; exit; }
room=$(mktemp -d)
chown postgres "$room"
stop() { su postgres -c "$bin/pg_ctl -D $room/data -m immediate stop" >/dev/null 2>&1 || true; rm -rf "$room"; }
trap stop EXIT
su postgres -c "$bin/initdb -A trust -D $room/data && $bin/pg_ctl -w -D $room/data -o '-k $room -c listen_addresses=' -l $room/log start" >/dev/null
su postgres -c "psql -h $room -X -q -c 'CREATE EXTENSION postgis'"
chmod 755 "$room"
python3 -B -m sfq_audit.engines postgis "host=$room user=postgres dbname=postgres" "$1"
"""
# How each engine of the folder is asked; the last word is what it is asked for. JTS's `relate` has an older method and RelateNG.
SHAPELY, SPATIALITE, GDAL = ([*PYTHON, it, ""] for it in ("shapely", "spatialite", "gdal"))
OF_GEOS = {"shapely": SHAPELY, "SpatiaLite": SPATIALITE, "PostGIS": ["sh", "-c", POSTGIS, "sh"]}
NEW, OLD, UNNAMED = ["java", "-Djts.relate=ng", *JAVA], ["java", "-Djts.relate=old", *JAVA], ["java", *JAVA]
# Prints what GeoPandas says of two texts: whether they overlap, and whether they are equal.
GEOPANDAS = """
import sys
try:
    import geopandas
except ImportError:
    sys.exit("needs the package python3-geopandas")
a, b = (geopandas.GeoSeries.from_wkt([it]) for it in sys.argv[1:])
print(f"GeoPandas {geopandas.__version__}:", a.overlaps(b)[0], a.geom_equals(b)[0])
"""


def paragraphs():
    """Returns what the page says of each pair below the tables, by its number, on one line."""
    found = re.findall(r"^\*\*(\d+)\.\*\* (.*?)\n\n", read(PAGE), re.M | re.S)
    return {number: " ".join(text.split()) for number, text in found}


def right_by_jts(methods):
    """Returns the numbers of the pairs that JTS 1.20 has right by the page, where it says so of one of these methods."""
    said = re.compile(rf"JTS(?: 1\.20\.0)? is right (?:in both versions and )?with (?:{methods})")
    return {number for number, text in paragraphs().items() if said.search(text)}


def of_older_table():
    """Returns the numbers of the second table's pairs that JTS 1.20 has right by its older method."""
    return set(re.findall(r"\d+", re.findall(r"is right for pairs ([\d and,]+)", " ".join(read(PAGE).split()))[0]))


class Pages(unittest.TestCase):
    """What the pages say of one another, for which no engine is needed."""

    def setUp(self):
        self.rows = test_audit.elsewhere()

    def test_words_in_the_tables(self):
        for row in self.rows:
            for matrix, word in (row.newer, row.older, row.ours):
                held = predicates.held(matrix, row.texts)
                self.assertTrue(not word or held[predicates.NAMES.index(word)] == "1", (row.number, word))

    def test_reports_have_the_pairs_of_the_page(self):
        reports = read(f"{ROOT}/docs/AUDIT.md").partition("### Reports")[2]
        found = re.findall(r"a is `(.*?)`, b is `(.*?)`\. Expected `(.*?)`, got `(.*?)`", " ".join(reports.split()))
        today = [it for it in self.rows if not it.found]
        self.assertEqual(found, [(*it.texts, it.ours[0], it.newer[0]) for it in today])


class Today(unittest.TestCase):
    @classmethod
    def setUpClass(cls):
        if not FOLDER or peer_folder.lacking_to_run(FOLDER):
            return
        words = ["dpkg-query", f"--admindir={FOLDER}/var/lib/dpkg", "-W", "-f", "${Package} ${Version}\n", *PACKAGES]
        found = re.findall(r"^(\S+) (?:\d+:)?([^-+~\s]+)", subprocess.run(words, capture_output=True, text=True).stdout, re.M)
        print(f"{FOLDER}: {', '.join(f'{PACKAGES[name]} {version}' for name, version in found)}", file=sys.stderr, flush=True)

    def setUp(self):
        if not FOLDER:
            self.skipTest("needs a folder of today's engines: tools/peer_folder.py makes it, and SFQ_PEERS names it")
        if missing := peer_folder.lacking_to_run(FOLDER):
            self.skipTest(f"needs a folder of today's engines: {missing}")
        self.rows = test_audit.elsewhere()

    def run_there(self, words, text=""):
        """Runs a command in the folder."""
        known = {**peer_folder.environment(FOLDER), "PYTHONPATH": f"{ROOT}/bindings/python"}
        return subprocess.run(peer_folder.words_in(FOLDER, words), input=text, capture_output=True, text=True, env=known)

    def ask(self, words, what="matrix", pairs=None):
        """Prints which engine it is, and returns its answers to pairs, by default those of the page."""
        pairs = [it.texts for it in self.rows] if pairs is None else pairs
        ran = self.run_there([*words, what], "".join(f"{a}\t{b}\n" for a, b in pairs) + "\n")
        self.assertTrue(ran.stdout, ran.stderr)
        version, *found = ran.stdout.splitlines()
        if version.startswith("! "):
            self.skipTest(f"needs {version[2:]}")
        print(f"{version}: {' '.join(found)}", file=sys.stderr, flush=True)
        self.assertEqual(len(found), len(pairs))
        return version, found

    def compare(self, version, found, wanted):
        """Compares the answers of an engine with those that the page has."""
        for row, it, said in zip(self.rows, found, wanted):
            with self.subTest(engine=version, pair=row.number):
                self.assertFalse(it == row.ours[0] != said, f"the page is out of date: {version} is right of pair {row.number}")
                self.assertEqual(it, said)

    def by_jts(self, is_new):
        """Returns the matrices that JTS 1.20 prints by the page."""
        right = right_by_jts("both methods") if is_new else right_by_jts("both methods|its older method") | of_older_table()
        return [it.ours[0] if it.number in right else (it.newer if is_new else it.older)[0] for it in self.rows]

    def test_geos_by_each_that_uses_it(self):
        for name, words in OF_GEOS.items():
            with self.subTest(name=name):
                self.compare(*self.ask(words), [it.newer[0] for it in self.rows])

    def test_jts_by_relate_ng(self):
        self.compare(*self.ask(NEW), self.by_jts(True))

    def test_jts_by_its_older_method_which_it_uses_unless_the_other_is_named(self):
        for words in (OLD, UNNAMED):
            self.compare(*self.ask(words), self.by_jts(False))

    def test_predicates_are_those_of_the_matrices(self):
        """GDAL has no matrix, and isn't asked for ST_Equals."""
        of_geos = [it.newer[0] for it in self.rows]
        asked = [*((words, of_geos) for words in (*OF_GEOS.values(), GDAL)), (NEW, self.by_jts(True)), (OLD, self.by_jts(False))]
        for words, matrices in asked:
            with self.subTest(words=words):
                version, found = self.ask(words, "predicates")
                for row, it, matrix in zip(self.rows, found, matrices):
                    with self.subTest(engine=version, pair=row.number):
                        held = predicates.held(matrix, row.texts)
                        self.assertEqual(it, f"*{held[1:]}" if words is GDAL else held)

    def test_the_pair_of_the_readme(self):
        first, second = re.findall(r"`(LINESTRING.*?)`", read(f"{ROOT}/README.md").partition("## Why exact")[2])[:2]
        row = next(it for it in self.rows if it.texts == (first, second))
        self.assertEqual((row.newer[1], row.older[1], row.ours[1]), ("overlaps", "overlaps", "equals"))
        ran = self.run_there(["python3", "-W", "ignore", "-c", GEOPANDAS, first, second])
        if ran.stderr.startswith("needs"):
            self.skipTest(ran.stderr.strip())
        print(ran.stdout.strip(), file=sys.stderr, flush=True)
        self.assertEqual(ran.stdout.split(":")[1].split(), ["True", "False"], f"the page is out of date: {ran.stdout}{ran.stderr}")

    def test_empty_geometries(self):
        """SpatiaLite has no answer, JTS says that two aren't equal, and GEOS and newer versions of GDAL say that they are, or that they are
        disjoint."""
        pairs = [("POINT EMPTY", "POINT EMPTY"), ("POINT EMPTY", "LINESTRING EMPTY")]
        for words, wanted in ((SPATIALITE, 8 * "-"), (NEW, "01000000"), (OLD, "01000000"), (GDAL, "*1000000"), (SHAPELY, "11000000")):
            with self.subTest(words=words):
                version, found = self.ask(words, "predicates", pairs)
                self.assertEqual(found, [wanted, wanted], f"the page is out of date of {version}")

    def test_more_pairs_of_the_reports(self):
        """Where the reports of docs/AUDIT.md say that an engine is right of another pair, it is."""
        triangle = "POLYGON((0 0,2 0,0 2,0 0))"
        for words, second in ((NEW, "LINESTRING(1 2,0 0,2 0,0 2,0 0)"), (SHAPELY, "LINESTRING(0 0,2 0,0 2,0 0,0 2)")):
            with self.subTest(second=second):
                _, found = self.ask(words, "matrix", [(triangle, second)])
                self.assertEqual(found, [test_audit.matrix(triangle, second)])


if __name__ == "__main__":
    unittest.main()
