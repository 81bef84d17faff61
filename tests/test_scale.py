"""sfq-scale writes what one run of sfq writes, byte for byte, however the tables are split and whatever happens to workers.

SFQ_PROGRAM and SFQ_TILES in the environment name other programs in place of those that ./build and ./build --tiles make.
"""
import functools
import itertools
import json
import os
import re
import shlex
import shutil
import subprocess
import sys
import tempfile
import time
import unittest

from support import ROOT, read, write

import library
import postgresql_server
import repository
import scale_cluster
import scale_programs
import scale_tables
import test_databases_python as databases
from fuzz import joins
from scale_programs import SFQ, TILES
from sfq_scale import merging, query, schema

MISTAKEN = f"{ROOT}/tests/mistaken_tiles.py"
SCALE = f"{ROOT}/bindings/python/bin/sfq-scale"


def needs_program(test):
    """Skips a test where a program or the library isn't there, or Dask, if the test's parts run in a cluster."""

    @functools.wraps(test)
    def run(self):
        lacks = scale_programs.lacks() or (None if library.are_made() else "./build --library")
        if lacks:
            self.skipTest(f"needs {lacks}")
        package = None if self.is_here else scale_cluster.lacks()
        if package:
            self.skipTest(f"needs the package {package}")
        test(self)

    return run


def one_run(folder, text, data=None):
    """Returns what one run of sfq writes on its two streams, and its status."""
    ran = subprocess.run([SFQ, "run", "--", f"{folder}/schema.sql", data or folder, text], stdin=subprocess.DEVNULL, capture_output=True)
    return ran.stdout, ran.stderr, ran.returncode


class WithCluster(unittest.TestCase):
    """A test case with a folder, and a cluster of two workers that the tests of a class share.

    Where `is_here` is set, parts run in the process of the call, without Dask.
    """

    ASKS_PROGRAM = True
    is_here, shared = False, None

    def setUp(self):
        self.folder = tempfile.mkdtemp(prefix="sfq-scale-test-")
        self.addCleanup(shutil.rmtree, self.folder)

    @classmethod
    def cluster(cls):
        if not cls.shared:
            cls.shared = scale_cluster.Cluster()
            cls.addClassCleanup(cls.stop)
        return cls.shared

    @classmethod
    def stop(cls):
        shared, cls.shared = cls.shared, None
        shared.stop()

    def words(self, text, *more, folder=None, tiles=None):
        """Returns the words of a call over the tables of a folder."""
        folder = folder or self.folder
        programs = ["--sfq", SFQ, "--tiles", tiles or TILES, "--scheduler", "none" if self.is_here else self.cluster().address]
        return ["run", *programs, *map(str, more), "--", f"{folder}/schema.sql", folder, text]

    def ask(self, calls, before="", more=()):
        """Makes calls in one process, and returns what each wrote on its two streams, and its status."""
        if self.is_here:
            before = "import scale_here; scale_here.take()"
        ran = subprocess.run(
            [sys.executable if self.is_here else scale_cluster.PYTHON, f"{ROOT}/tests/scale_calls.py"], input=json.dumps({"before": before, "calls": calls}).encode(),
            stdout=subprocess.PIPE, stderr=subprocess.PIPE, env=scale_cluster.environment({"TMPDIR": self.folder, **dict(more)}),
        )
        self.assertEqual(ran.returncode, 0, ran.stderr.decode())
        return [(out.encode("latin-1"), err.encode("latin-1"), status) for out, err, status in json.loads(ran.stdout)]

    def compare(self, queries, *more, folder=None, **how):
        """Compares the answers of queries with those of one run."""
        found = self.ask([self.words(it, *more, folder=folder) for it in queries], **how)
        for text, it in zip(queries, found, strict=True):
            with self.subTest(text):
                self.assertEqual(it, one_run(folder or self.folder, text))
        return found

    def differ(self, queries, *more, tiles=TILES, **how):
        """Returns for how many of the queries the answers differ from those of one run."""
        found = self.ask([self.words(it, *more, tiles=tiles) for it in queries], **how)
        return sum(it != one_run(self.folder, text) for text, it in zip(queries, found, strict=True))


class Answers(WithCluster):
    """Queries over small tables."""

    def setUp(self):
        super().setUp()
        scale_tables.small(self.folder)

    @needs_program
    def test_tiles_of_nine_rows(self):
        found = self.compare(scale_tables.QUERIES, "--rows", 9)
        # Most of them are of many rows.
        self.assertGreater(sum(out.count(b"\n") > 10 for out, _, _ in found), 12)

    @needs_program
    def test_tiles_of_a_hundred_thousand_rows(self):
        self.compare(scale_tables.QUERIES, "--rows", 100_000)

    @needs_program
    def test_sent_tiles(self):
        self.compare(scale_tables.QUERIES[9:20:3] + scale_tables.QUERIES[:2], "--rows", 20, "--send")

    @needs_program
    def test_each_mistake_is_seen(self):
        """Without the owner's condition, with a border open on the wrong side, or with rows in one cell alone, answers differ."""
        areas = [it for it in scale_tables.QUERIES if "ST_" in it and ("COUNT" in it or "parcel a" in it) and "Disjoint" not in it]
        taken = "import sfq_scale.query as q; q.owner_condition = lambda sources, marks: '1 = 1'"
        self.assertEqual(self.differ(areas, "--rows", 9), 0)
        self.assertGreater(self.differ(areas, "--rows", 9, before=taken), 1)
        for mistake in ("open", "first"):
            self.assertGreater(self.differ(areas, "--rows", 9, tiles=MISTAKEN, more={"MISTAKE": mistake, "SFQ_TILES": TILES}), 1, mistake)

    @needs_program
    def test_how_it_was_split_and_progress(self):
        text = "SELECT COUNT(*) FROM House h JOIN parcel p ON ST_Within(h.ground, p.geom) WHERE s = 'x'"
        (out, err, status), = self.ask([self.words(text, "--rows", 9, "--explain", "--progress")])
        self.assertEqual((out, status), (one_run(self.folder, text)[0], 0))
        self.assertRegex(err.decode(), r"(?s)splitting the tables\n.*(\d+) of \1 parts done\n.*by tiles of ST_Within\(h\.ground, p\.geom\)\n")
        self.assertRegex(err.decode(), r"query SELECT COUNT.* AND \(h\.w = 0 OR p\.w = 0\) AND \(h\.s_ = 0 OR p\.s = 0\)\n")
        self.assertRegex(err.decode(), r"rows House \d+\nsfq-scale: rows parcel \d+\nsfq-scale: seconds splitting \d")

    @needs_program
    def test_the_query_in_a_file(self):
        text = scale_tables.QUERIES[9]
        write(f"{self.folder}/query.sql", text)
        words_ = self.words(f"@{self.folder}/query.sql", "--rows", 9)
        ran = subprocess.run([SCALE, *words_[:-1], "@-"], input=text.encode(), capture_output=True, env=scale_cluster.environment())
        self.assertEqual([*self.ask([words_]), (ran.stdout, ran.stderr, ran.returncode)], [one_run(self.folder, text)] * 2)


class RandomJoins(WithCluster):
    """Random joins of small tables, whose parts run here, without Dask."""

    FEW, MANY, is_here = 40, 1_000, True

    def check(self, seed, count):
        """Compares so many joins with one run, by parts of few rows."""
        pool = joins.Pool(joins.GEOMETRIES, {})
        for at in range(0, count, 50):
            calls, wanted = [], []
            for number in range(at, min(at + 50, count)):
                drawing, folder = joins.Drawing(pool, f"{seed} {number}"), f"{self.folder}/{number}"
                write(f"{folder}/schema.sql", joins.SCHEMA)
                for it in joins.TABLES:
                    write(f"{folder}/{it}.csv", drawing.csv(it))
                for it in drawing.joins():
                    programs = ["--sfq", SFQ, "--tiles", TILES, "--scheduler", "none", "--rows", str(2 + number % 11)]
                    calls.append(["run", *programs, *["--send"] * (number % 3 == 0), "--", f"{folder}/schema.sql", folder, it.text])
                    wanted.append(one_run(folder, it.text))
            found = self.ask(calls)
            for words_, it, whole in zip(calls, found, wanted, strict=True):
                self.assertEqual(it, whole, words_)

    @needs_program
    def test_some(self):
        self.check(1, self.FEW)


class LongRandomJoins(RandomJoins):
    """Many, others in each run. A failure names the folder, and so the number of the join, and the seed."""

    IS_LONG = True

    @needs_program
    def test_some(self):
        seed = time.time_ns() % 1_000_000
        with self.subTest(seed=seed):
            self.check(seed, self.MANY)


class Faults(WithCluster):
    """Faults have the line and the status that one run has, and leave nothing in the folder for temporary files."""

    is_here = True

    QUERIES = [
        "SELECT id FROM parcel WHERE", "SELECT nope FROM parcel", "SELECT id FROM parcel a, parcel b WHERE ST_Touches(a.geom, b.geom)",
        "SELECT id FROM nope", "SELECT id FROM parcel WHERE name = 1", "SELECT id FROM parcel LIMIT 9223372036854775808",
        "SELECT id FROM parcel WHERE ST_Relate(geom, geom, 'T')", "SELECT p.id FROM parcel p, road p", "@nothing", "'",
        "SELECT id FROM parcel WHERE ST_Within(geom, ST_GeomFromText('POINT(1.5 2)'))", "SELECT id FROM parcel", "",
        "SELECT COUNT(*) FROM House h JOIN parcel p ON ST_Within(h.ground, p.geom)",
    ]

    def setUp(self):
        super().setUp()
        scale_tables.small(self.folder)

    def check(self, queries=("SELECT id FROM parcel", "SELECT nope FROM parcel", "SELECT id FROM parcel WHERE", QUERIES[-1])):
        found = self.compare(queries, "--rows", 9)
        self.assertTrue(all(status for _, _, status in found) or queries is self.QUERIES)
        self.assertEqual([it for it in os.listdir(self.folder) if it.startswith("sfq-scale-")], [])

    @needs_program
    def test_of_queries(self):
        self.check(self.QUERIES)

    @needs_program
    def test_a_double_key_across_stretches(self):
        rows = read(f"{self.folder}/road.csv").replace("\r\n", "\n")
        write(f"{self.folder}/road.csv", rows + f"again,,{7}\nmore,,8\n")
        self.check()

    @needs_program
    def test_a_bad_record_in_a_late_stretch(self):
        for at, bad in enumerate(['x,"LINESTRING(0 0,1.5 1)",200\n', "x,,2000,3\n", "x,,\n", 'x,"LINESTRING(0 0,0 0)",200\n', "x,POINT(0 0),200\n", "x,,1e3\n"]):
            scale_tables.small(self.folder, at)
            with open(f"{self.folder}/road.csv", "a", encoding="utf-8") as file:
                file.write(bad)
            self.check(self.QUERIES[:1] + self.QUERIES[-1:])

    @needs_program
    def test_headers_and_files(self):
        write(f"{self.folder}/bare.csv", "id\n")
        self.check()
        write(f"{self.folder}/bare.csv", "")
        self.check()
        write(f"{self.folder}/bare.csv", "id,geom,ID\n")
        self.check()
        os.remove(f"{self.folder}/bare.csv")
        self.check()
        os.mkdir(f"{self.folder}/bare.csv")
        self.check()

    @needs_program
    def test_of_schemas(self):
        for it in ("CREATE TABLE t (id INT)", "CREATE TABLE t (", "", "\0"):
            write(f"{self.folder}/schema.sql", it)
            self.check()
        os.remove(f"{self.folder}/schema.sql")
        self.check()


class Refusals(WithCluster):
    """What sfq-scale doesn't do, it refuses with the reason."""

    is_here = True

    def setUp(self):
        super().setUp()
        scale_tables.small(self.folder)

    def refused(self, text, status, said, *more):
        (out, err, ended), = self.ask([self.words(text, *more)])
        self.assertEqual((out, ended), (b"", status), err)
        self.assertRegex(err.decode(), rf"\Asfq-scale: .*{said}.*\n\Z")

    @needs_program
    def test_plans(self):
        self.refused("EXPLAIN SELECT id FROM parcel", 5, "EXPLAIN is of one run")
        self.refused("EXPLAIN ANALYZE SELECT id FROM parcel", 5, "EXPLAIN is of one run")

    @needs_program
    def test_too_many_pairs(self):
        text = "SELECT COUNT(*) FROM parcel, road"
        self.refused(text, 5, f"looks at {63 * 17:,} pairs", "--most-pairs", 63 * 17 - 1)
        self.compare([text], "--most-pairs", 63 * 17)

    @needs_program
    def test_more_columns_than_a_tile_takes(self):
        columns = ", ".join(f"c{at} TEXT" for at in range(30))
        write(f"{self.folder}/schema.sql", f"CREATE TABLE t (id INT PRIMARY KEY, geom POINT, {columns});")
        write(f"{self.folder}/t.csv", f"id,geom,{','.join(f'c{at}' for at in range(30))}\n1,POINT(0 0){',x' * 30}\n")
        self.refused("SELECT * FROM t a JOIN t b ON ST_Equals(a.geom, b.geom)", 5, "names 32 columns of t, and a tile has room for 30")
        self.compare(["SELECT a.c29, b.c0 FROM t a JOIN t b ON ST_Equals(a.geom, b.geom)", "SELECT * FROM t"])

    @needs_program
    def test_deep_and_long_queries(self):
        deep = "(" * 64 + "a.id = 1 OR a.id > 1" + ")" * 64
        join = "SELECT COUNT(*) FROM parcel a JOIN parcel b ON ST_Touches(a.geom, b.geom) AND"
        self.compare([f"{join} {deep}", f"{join} a.w = 1 OR ST_Equals(a.geom, b.geom) WHERE {deep}"], "--rows", 30)
        both = f"{join.removesuffix('AND')} AND ST_Touches(b.geom, a.geom) WHERE {deep} OR a.id = 2"
        self.compare([both], "--rows", 30)
        spaces = f"{join} a.id <> 3 {'AND a.id<>3 ' * 5_000}"
        self.assertLess(len(spaces), 65_536)
        self.refused(spaces, 5, "refused as sfq: Q11")

    @needs_program
    def test_output_that_cannot_be_written(self):
        words_ = self.words("SELECT id, name FROM parcel")
        code = f"import scale_here; scale_here.take(); from sfq_scale import command; command.main({words_!r})"
        known = scale_cluster.environment({"TMPDIR": self.folder, "PYTHONPATH": f"{ROOT}/tests:{ROOT}/bindings/python"})
        with open("/dev/full", "wb") as full:
            ran = subprocess.run([sys.executable, "-c", code], stdout=full, stderr=subprocess.PIPE, env=known)
        self.assertEqual((ran.stderr, ran.returncode), (b"sfq: write failed\n", 6))
        self.refused("SELECT id FROM parcel", 6, "no folder can be made in /nothing", "--room", "/nothing")

    @needs_program
    def test_misuse(self):
        calls = [["run"], ["rum"], [], self.words("SELECT id FROM parcel", "--rows", 0), self.words("SELECT id FROM parcel", "--rows", 100_001)]
        self.assertEqual([it[2] for it in self.ask(calls)], [2] * len(calls))
        ran = subprocess.run([SCALE, "--version"], capture_output=True, text=True, env=scale_cluster.environment())
        self.assertEqual((ran.stdout, ran.returncode), (f"sfq-scale {repository.version()}\n", 0))
        for option in ("--sfq", "--tiles"):
            self.refused("SELECT id FROM parcel", 2, "there is no program /nothing", option, "/nothing")

    @needs_program
    def test_an_sfq_tiles_that_fails(self):
        path = f"{self.folder}/bin/sfq-tiles"
        for text, status, said in (
            ("echo 'sfq: out unwritable' >&2; exit 6", 6, "the parts of the tables can't be written in .*: is it full"),
            ("echo 'error: unknown' >&2; exit 2", 8, f"{path} ended with status 2: is it of this version. error: unknown"),
            ("kill -9 $$", 8, f"{path} ended with status -9"),
        ):
            write(path, f"#!/bin/sh\n{text}\n", 0o755)
            self.refused("SELECT id FROM parcel", status, said, "--tiles", path)
        write(path, "#!/bin/sh\necho 'sfq: parcel unreadable' >&2; exit 6\n", 0o755)
        (out, err, status), = self.ask([self.words("SELECT id FROM parcel", "--tiles", path)])
        self.assertEqual((out, err, status), (b"", b"sfq: parcel unreadable\n", 6))


class Skew(WithCluster):
    """Crowded tables: no run gets many more rows than were asked for, and answers stay those of one run."""

    is_here = True

    TEXTS = [
        "SELECT a.id, b.id FROM a JOIN b ON ST_Intersects(a.geom, b.geom)", "SELECT COUNT(*) FROM a JOIN b ON ST_Overlaps(a.geom, b.geom)",
        "SELECT COUNT(*) FROM b x JOIN b y ON ST_Intersects(x.geom, y.geom)",
        "SELECT b.id, a.id FROM b JOIN a ON ST_Crosses(b.geom, a.geom) LIMIT 10",
    ]

    @needs_program
    def test_all_over_one_point_or_in_a_corner_in_few_towns_and_a_line_across_all(self):
        for kind in ("point", "corner", "town", "line"):
            folder = f"{self.folder}/{kind}"
            os.mkdir(folder)
            scale_tables.crowds(folder, kind)
            self.compare(self.TEXTS, "--rows", 9, folder=folder)
        found = self.ask([self.words(it, "--rows", 9, "--explain", folder=f"{self.folder}/corner") for it in self.TEXTS[1:3]])
        # The tile of the corner has 40 rows of each, and no cut makes it smaller: it is run by blocks, 5 stretches with 5.
        for _, err, _ in found:
            runs, = re.findall(r"by tiles of ST_.*\n(?:.*\n)?sfq-scale: runs (\d+)\n", err.decode())
            self.assertTrue(25 < int(runs) < 70, runs)
        (_, err, _), = self.ask([self.words(self.TEXTS[1], "--rows", 9, "--explain", folder=f"{self.folder}/point")])
        # Blocks of 60 rows over one point: 7 stretches of one table with 7 of the other.
        self.assertRegex(err.decode(), r"(?s)by blocks\n.*runs 49\n")


class Troubles(WithCluster):
    """Workers that die, that have another program, and a scheduler that isn't there."""

    # Each run takes some tenths of a second.
    TEXT = "SELECT a.id, b.id FROM parcel a JOIN parcel b ON ST_Touches(a.geom, b.geom) WHERE a.id <> b.id"

    def begin(self, cluster, *more):
        """Starts a call whose runs each wait at a stand-in for sfq until the file `go` is there, and returns it."""
        write(f"{self.folder}/bin/sfq", f"#!/bin/sh\ncase \"$2\" in */sfq-scale-*/schema.sql) case \"$3\" in */tables) "
              f"echo $$ >> {self.folder}/begun; while [ -d {self.folder} ] && [ ! -e {self.folder}/go ]; do sleep 0.05; done;; esac;; esac\nexec {SFQ} \"$@\"\n", 0o755)
        words_ = self.words(self.TEXT, "--rows", 9, "--progress", *more)
        words_[words_.index("--scheduler") + 1] = cluster.address
        words_[words_.index("--sfq") + 1] = f"{self.folder}/bin/sfq"
        environment = scale_cluster.environment({"TMPDIR": f"{self.folder}/room"})
        os.makedirs(f"{self.folder}/room", exist_ok=True)
        made = subprocess.Popen([SCALE, *words_], stdout=subprocess.PIPE, stderr=subprocess.PIPE, env=environment)
        begun = time.monotonic()
        while not os.path.exists(f"{self.folder}/begun"):
            if made.poll() is not None or time.monotonic() - begun > scale_cluster.PATIENCE:
                raise RuntimeError(made.communicate()[1].decode())
            time.sleep(0.05)
        return made

    def own_cluster(self, *given, **how):
        found = scale_cluster.Cluster(*given, **how)
        self.addCleanup(found.stop)
        return found

    def setUp(self):
        super().setUp()
        scale_tables.small(self.folder)

    @needs_program
    def test_a_worker_killed_in_the_middle(self):
        for more in ([], ["--send"]):
            cluster = self.own_cluster(3)
            made = self.begin(cluster, *more)
            cluster.kill(cluster.workers[0])
            write(f"{self.folder}/go", "")
            out, err = made.communicate(timeout=scale_cluster.PATIENCE)
            self.assertEqual((out, made.returncode), (one_run(self.folder, self.TEXT)[0], 0), err)
            os.remove(f"{self.folder}/go")
            os.remove(f"{self.folder}/begun")
            self.assertEqual(os.listdir(f"{self.folder}/room"), [])

    @needs_program
    def test_a_worker_that_comes_for_one_that_died(self):
        cluster = self.own_cluster(1)
        made = self.begin(cluster)
        cluster.kill(cluster.workers[0])
        write(f"{self.folder}/go", "")
        cluster.add()
        out, err = made.communicate(timeout=scale_cluster.PATIENCE)
        self.assertEqual((out, made.returncode), (one_run(self.folder, self.TEXT)[0], 0), err)

    @needs_program
    def test_all_workers_gone(self):
        cluster = self.own_cluster(2)
        made = self.begin(cluster, "--wait", 1)
        for it in list(cluster.workers):
            cluster.kill(it)
        out, err = made.communicate(timeout=scale_cluster.PATIENCE)
        write(f"{self.folder}/go", "")
        self.assertEqual((out, made.returncode), (b"", 8), err)
        self.assertRegex(err.decode(), r"sfq-scale: the cluster at tcp://\S+ has had no worker for 1 seconds\n\Z")
        self.assertEqual(os.listdir(f"{self.folder}/room"), [])

    @needs_program
    def test_the_scheduler_gone(self):
        cluster = self.own_cluster(1)
        made = self.begin(cluster, "--wait", 1)
        cluster.kill(cluster.scheduler)
        out, err = made.communicate(timeout=scale_cluster.PATIENCE)
        write(f"{self.folder}/go", "")
        self.assertEqual((out, made.returncode), (b"", 8), err)
        self.assertRegex(err.decode(), r"sfq-scale: the (scheduler|cluster) at tcp://\S+ .*\n\Z")

    @needs_program
    def test_no_scheduler_and_no_worker(self):
        cluster = self.own_cluster(0, environments=())
        words_ = self.words(self.TEXT, "--wait", 1)
        at = words_.index("--scheduler") + 1
        found = self.ask([[*words_[:at], it, *words_[at + 1 :]] for it in ("tcp://127.0.0.1:1", "nonsense", cluster.address)])
        for out, err, status in found:
            self.assertEqual((out, status), (b"", 8), err)
            self.assertRegex(err.decode(), r"\Asfq-scale: (no scheduler answers at .*|the cluster at \S+ has had no worker for 1 seconds)\n\Z")

    @needs_program
    def test_another_program_on_a_worker(self):
        for name, text in (("mine", f'exec {SFQ} "$@"'), ("yours", f'exec {SFQ} "$@" # another')):
            write(f"{self.folder}/{name}/sfq", f"#!/bin/sh\n{text}\n", 0o755)
        paths = [{"PATH": f"{self.folder}/{name}:{os.environ['PATH']}"} for name in ("mine", "yours")]
        cluster = self.own_cluster(environments=paths)
        words_ = self.words(self.TEXT, "--worker-sfq", "sfq")
        words_[words_.index("--scheduler") + 1] = cluster.address
        words_[words_.index("--sfq") + 1] = f"{self.folder}/mine/sfq"
        (out, err, status), = self.ask([words_])
        self.assertEqual((out, status), (b"", 8), err)
        self.assertRegex(err.decode(), rf"\Asfq-scale: worker tcp://\S+: {self.folder}/yours/sfq has the SHA-256 [0-9a-f]{{64}}, not [0-9a-f]{{64}}\n\Z")
        cluster.kill(cluster.workers[1])
        (out, err, status), = self.ask([words_])
        self.assertEqual((out, err, status), one_run(self.folder, self.TEXT))

    @needs_program
    def test_a_run_that_fails_whenever_it_is_tried(self):
        for text, wanted in (("echo 'sfq: out of memory' >&2; exit 7", (b"", b"sfq: out of memory\n", 7)), ("kill -9 $$", None)):
            path = f"{self.folder}/bin/sfq"
            write(path, f"#!/bin/sh\ncase \"$4\" in @*/query.sql) {text};; esac\nexec {SFQ} \"$@\"\n", 0o755)
            words_ = self.words(self.TEXT)
            words_[words_.index("--sfq") + 1] = path
            found, = self.ask([words_])
            if wanted:
                self.assertEqual(found, wanted)
            else:
                self.assertEqual((found[0], found[2]), (b"", 8))
                self.assertRegex(found[1].decode(), r"\Asfq-scale: tile \d: signal 9 ended sfq, 3 times\n\Z")


class LongAnswers(WithCluster):
    """Tables of as many rows as one run takes, and of more, whose counts PostGIS confirms."""

    IS_LONG = True
    # Trees and parcels past one run; whether a tree is within a parcel, and whether parcels touch, PostGIS says by the same rule.
    TREES, PARCELS = 1_000_000, 300_000
    COUNTS = [
        ("SELECT COUNT(*) FROM tree t JOIN parcel p ON ST_Within(t.place, p.geom)", "tree a, parcel b WHERE ST_Within(a.place, b.geom)"),
        ("SELECT COUNT(*) FROM parcel p JOIN parcel q ON ST_Touches(p.geom, q.geom)", "parcel a, parcel b WHERE ST_Touches(a.geom, b.geom)"),
    ]

    @classmethod
    def cluster(cls):
        if not cls.shared:
            cls.shared = scale_cluster.Cluster(4)
            cls.addClassCleanup(cls.stop)
        return cls.shared

    @needs_program
    def test_a_hundred_thousand_rows(self):
        scale_tables.land(self.folder, 316, 100_000)
        queries = [
            "SELECT a.id, b.id, b.owner FROM parcel a JOIN parcel b ON ST_Touches(a.geom, b.geom)",
            "SELECT COUNT(*) FROM tree t JOIN parcel p ON ST_Within(t.at, p.geom)",
            "SELECT p.owner, t.at FROM parcel p JOIN tree t ON ST_Touches(p.geom, t.at) LIMIT 5000",
            "SELECT at FROM tree WHERE id > 10",
        ]
        for rows in (100_000, 20_000):
            self.compare(queries, "--rows", rows)
        self.compare(queries[:2], "--rows", 30_000, "--send")

    @needs_program
    def test_a_million_rows_beside_postgis(self):
        if not postgresql_server.has_extension("postgis"):
            self.skipTest("needs the package postgresql-15-postgis-3")
        subprocess.run(
            [sys.executable, f"{ROOT}/examples/town.py", "--trees", str(self.TREES), "--parcels", str(self.PARCELS), self.folder], check=True
        )
        found = self.ask([self.words(it, "--explain") for it, _ in self.COUNTS])
        server = postgresql_server.Server()
        self.addCleanup(server.stop)
        server.start()
        for name, column in (("parcel", "purpose text, owner integer, geom"), ("tree", "kind text, place")):
            out, err, status = server.run(
                f"CREATE EXTENSION IF NOT EXISTS postgis;\nCREATE TABLE {name} (id integer PRIMARY KEY, {column} geometry);\n"
                f"\\copy {name} FROM '{self.folder}/{name}.csv' CSV HEADER\n"
                f"CREATE INDEX ON {name} USING gist ({column.rpartition(' ')[2]});\nANALYZE {name};"
            )
            self.assertEqual(status, 0, out + err)
        for (text, asked), (out, err, status) in zip(self.COUNTS, found, strict=True):
            count, said, _ = server.run(f"SELECT count(*) FROM {asked};")
            self.assertEqual((out.decode(), status), (f"COUNT(*)\n{count}", 0), f"{text}\n{err.decode()}{said}")


class Documents(WithCluster):
    """docs/SCALE.md and the manual page."""

    @needs_program
    def test_the_example_prints_what_is_shown(self):
        text = read(f"{ROOT}/docs/SCALE.md")
        town, = re.findall(r"^python3 (examples/town\.py .*) out/town$", text, re.M)
        subprocess.run([sys.executable, *shlex.split(town), self.folder], cwd=ROOT, check=True)
        shown = re.findall(r"^```sh\nsfq-scale (run .*)\n```\n```text\n((?:.*\n)+?)```$", text, re.M)
        self.assertGreater(len(shown), 1)
        calls = []
        for line, _ in shown:
            it = [part.replace("out/town", self.folder) for part in shlex.split(line)]
            it[it.index("--scheduler") + 1] = self.cluster().address
            calls.append([*it, "--sfq", SFQ, "--tiles", TILES])
        self.assertEqual([it[0].decode() for it in self.ask(calls)], [it for _, it in shown])
        for it, (_, wanted) in zip(calls, shown):
            self.assertEqual(one_run(self.folder, it[3]), (wanted.encode(), b"", 0))

    def test_the_manual_page_has_each_option_and_status(self):
        page = read(f"{ROOT}/packaging/man/sfq-scale.1").replace("\\-", "-")
        source = read(f"{ROOT}/bindings/python/sfq_scale/command.py")
        options = re.findall(r'add_argument\("(--[\w-]+)"', source)
        self.assertGreater(len(options), 9)
        for it in options:
            self.assertRegex(page, rf"(?m)^\.(B|BI|BR).*{it}\b", it)
        for it in "02345678":
            self.assertRegex(page, rf"(?m)^\.B {it}$")


class Reading(databases.WithTables):
    """How queries and schemas are read and written again. No program is asked."""

    TEXT = "CREATE TABLE t (id INT PRIMARY KEY, w INT, g POINT NOT NULL); -- x\ncreate table U (ID INT NOT NULL PRIMARY KEY, h Polygon);"

    def read(self, text):
        return query.read(text, schema.read(self.TEXT))

    def test_schemas(self):
        t, u = schema.read(self.TEXT)
        self.assertEqual((t.key, u.key, [it.kind for it in t.columns]), ("id", "ID", ["INTEGER", "INTEGER", "POINT"]))
        self.assertEqual(schema.marks(t.columns), ["w_", "s"])
        self.assertEqual(schema.marked(u).text, "CREATE TABLE U (ID INTEGER PRIMARY KEY NOT NULL, h POLYGON, w INTEGER NOT NULL, s INTEGER NOT NULL);\n")
        self.assertEqual(schema.read(schema.marked(t).text)[0], schema.marked(t))

    def test_texts_of_parts(self):
        for text, wanted in (
            ("SELECT * FROM t", "SELECT t.id, t.id, t.w, t.g FROM one AS t"),
            ("select W from T x limit 3;", "SELECT x.id, x.w FROM one AS x LIMIT 3"),
            ("SELECT COUNT(*)FROM u", "SELECT COUNT(*) FROM one AS U"),
            ("SELECT w,h FROM t,U", "SELECT t.id, U.ID, t.w, U.h FROM one AS t, two AS U"),
            ("SELECT a.id FROM t a -- 'x\nJOIN U ON w=-5", "SELECT a.id, U.ID, a.id FROM one AS a JOIN two AS U ON a.w = - 5"),
            ("SELECT st_astext( g ),ST_ISEMPTY(t.g) FROM t", "SELECT t.id, ST_AsText(t.g), ST_IsEmpty(t.g) FROM one AS t"),
            ("SELECT w FROM t WHERE t -- é\n. w = 1 AND 'é' <> 'ON' AND W IS NULL -- z", "SELECT t.id, t.w FROM one AS t WHERE t.w = 1 AND 'é' <> 'ON' AND t.w IS NULL"),
            ("SELECT w FROM t WHERE 'FROM '' -- U'='x'", "SELECT t.id, t.w FROM one AS t WHERE 'FROM '' -- U' = 'x'"),
        ):
            self.assertEqual(self.read(text).text(query.NAMES), wanted)

    def test_where_the_owner_is_named(self):
        for text, wanted in (
            ("t a, U b", "one AS a JOIN two AS b ON OWNER"),
            ("t a, U b WHERE w = 1 OR w = 2", "one AS a JOIN two AS b ON OWNER WHERE a.w = 1 OR a.w = 2"),
            ("t a JOIN U b ON w = 1 OR w = 2", "one AS a JOIN two AS b ON a.w = 1 OR a.w = 2 WHERE OWNER"),
            ("t a JOIN U b ON w = 1 OR w = 2 WHERE (w = 1 OR w = 2)", "one AS a JOIN two AS b ON a.w = 1 OR a.w = 2 WHERE (a.w = 1 OR a.w = 2) AND OWNER"),
            ("t a JOIN U b ON w = 1 WHERE w = 1 OR w = 2", "one AS a JOIN two AS b ON a.w = 1 AND OWNER WHERE a.w = 1 OR a.w = 2"),
            ("t a JOIN U b ON w = 1 OR w = 2 WHERE w = 1 OR w = 2", "one AS a JOIN two AS b ON a.w = 1 OR a.w = 2 WHERE (a.w = 1 OR a.w = 2) AND OWNER"),
        ):
            self.assertEqual(self.read(f"SELECT COUNT(*) FROM {text}").text(query.NAMES, owner="OWNER"), f"SELECT COUNT(*) FROM {wanted}")
        select = self.read("SELECT w FROM t a, U b")
        self.assertEqual(query.owner_condition(select.sources, [["w_", "s"], ["w", "s"]]), "(a.w_ = 0 OR b.w = 0) AND (a.s = 0 OR b.s = 0)")

    def test_predicates_that_may_force_a_meeting(self):
        for text, wanted in (
            ("ST_Touches(g, h)", 1), ("st_touches(h, a.g) = 1", 1), ("ST_Touches(g, h) = 01", 1), ("ST_Touches(g, h) = 0", 0), ("NOT ST_Touches(g, h)", 0),
            ("ST_Touches(g, g)", 0), ("ST_Touches(g, h) OR w = 1", 0), ("(ST_Touches(g, h) OR w = 1) AND w = 1", 0),
            ("w = 1 AND ((ST_Touches(g, h) AND w = 1))", 1), ("ST_Relate(g, h, 'T********') AND ST_Within(g, h)", 2),
            ("ST_Touches(g, ST_GeomFromText('POINT(0 0)'))", 0), ("ST_IsEmpty(g) AND ST_Dimension(g) = 1", 0),
            ("ST_Disjoint(g, h)", 0), ("ST_Relate(g, h, 'FF*FF****')", 0), ("ST_Relate(g, h, '****T****')", 1), ("ST_AsText(g) = ST_AsText(h)", 0),
        ):
            self.assertEqual(len(self.read(f"SELECT w FROM t a, U b WHERE {text}").meetings), wanted, text)
        self.assertEqual(len(self.read("SELECT w FROM t a JOIN U b ON ST_Within(g, h)").meetings), 1)
        select = self.read("SELECT w FROM t a, U b WHERE w = 1 AND st_relate(h, g, 'T********') = 1")
        found, = select.meetings
        self.assertEqual((found.arguments, found.text(select.sources)), (((1, "h"), (0, "g")), "ST_Relate(b.h, a.g)"))

    def test_columns_that_are_used(self):
        for text, wanted in (
            ("SELECT COUNT(*) FROM t", [{"id"}]), ("SELECT * FROM U", [{"ID", "h"}]), ("SELECT ST_Dimension(g) FROM t a, U WHERE W = U.id", [{"id", "w", "g"}, {"ID"}]),
            ("SELECT a.id FROM t a JOIN t b ON ST_Touches(a.g, ST_GeomFromText('POINT(0 0)')) WHERE NOT (b.w = 1 OR 2 < b.w)", [{"id", "g"}, {"id", "w"}]),
        ):
            self.assertEqual(self.read(text).used, wanted, text)

    def test_what_is_refused(self):
        for text in ("SELECT", "SELECT w FROM t a, U b, t c", "SELECT w FROM nope", "SELECT id FROM t, U", "SELECT w FROM t LIMIT 1 2", "SELECT $ FROM t", "w"):
            with self.assertRaises(query.Unsure, msg=text):
                self.read(text)


class Merging(unittest.TestCase):
    """How answers of parts become one."""

    def setUp(self):
        self.folder = tempfile.mkdtemp(prefix="sfq-merging-")
        self.addCleanup(shutil.rmtree, self.folder)

    def merge(self, texts, keys=1, limit=None):
        header = b"id," * keys + b"v\n"
        taking = merging.Rows(self.folder, header, b"v\n", keys, limit)
        for at, it in enumerate(texts):
            with open(f"{self.folder}/{at}.csv", "wb") as file:
                file.write(header + it)
            taking.add(f"{self.folder}/{at}.csv")
        with open(f"{self.folder}/out", "w+b") as out:
            taking.write(out)
            out.seek(0)
            return out.read()

    def test_rows(self):
        self.assertEqual(self.merge([b"-5,a\n1,b\n", b"", b"-7,c\n0,d\n12,e\n"]), b"v\nc\na\nd\nb\ne\n")
        self.assertEqual(self.merge([b"1,2,a\n2,-9,b\n", b"1,3,c\n1,10,d\n"], 2), b"v\na\nc\nd\nb\n")
        self.assertEqual(self.merge([b"1,\n3,\"x\n,\"\"y\"\n", b"2,\n"]), b'v\n""\n""\n"x\n,""y"\n')
        self.assertEqual(self.merge([b"1,a\n3,c\n", b"2,b\n4,d\n"], limit=3), b"v\na\nb\nc\n")
        self.assertEqual(self.merge([b"1,a\n"], limit=0), b"v\n")
        large = -(2**63), 2**63 - 1
        self.assertEqual(self.merge([b"%d,%d,b\n%d,%d,c\n" % (large[0], large[1], large[1], large[0]), b"%d,%d,a\n" % (large[0], large[0])], 2), b"v\na\nb\nc\n")

    def test_many_answers_by_little_memory(self):
        """Of records over many reads, with line ends in quotes, in more parts than are merged at a time."""
        parts = [[(key, b'"%d\n,""%s"' % (key, b"x" * (key % 50))) for key in range(at, 9_000, 300)] for at in range(300)]
        texts = [b"".join(b"%d,%s\n" % it for it in part) for part in parts]
        wanted = b"v\n" + b"".join(value + b"\n" for _, value in sorted(itertools.chain(*parts)))
        least = merging.LEAST
        for size in (7, 64, least):
            merging.LEAST = size
            self.addCleanup(setattr, merging, "LEAST", least)
            memory, merging.MEMORY = merging.MEMORY, 1
            self.addCleanup(setattr, merging, "MEMORY", memory)
            found = list(itertools.chain(*merging.merged([merging.Part(self.part(at, it), b"id,v\n", 1) for at, it in enumerate(texts)], 1)))
            self.assertEqual(b"v\n" + merging.lines_of(found), wanted)
        self.assertEqual(self.merge(texts), wanted)

    def part(self, at, text):
        path = f"{self.folder}/part-{at}.csv"
        with open(path, "wb") as file:
            file.write(b"id,v\n" + text)
        return path

    def test_what_is_no_answer(self):
        for text in (b"id,v\n1,a", b"id,w\n1,a\n", b"", b"id,v\n1,\"a\n"):
            path = f"{self.folder}/part.csv"
            with open(path, "wb") as file:
                file.write(text)
            with self.assertRaises(merging.ended(0, "").__class__):
                list(merging.merged([merging.Part(path, b"id,v\n", 1)]))
        counting = merging.Count(b"COUNT(*)\n", None)
        with self.assertRaises(merging.ended(0, "").__class__):
            counting.add(path)
