"""Files of tables that another program changes while they are loaded, and later: bindings/c/sfq_tables.c over a stand-in for the proved
calls, and `sfq.connect` over the library."""
import os
import re
import subprocess
import tempfile
import unittest

from support import ROOT, needs, read, write

import engine_rows
import sfq

# Proved calls that do nothing but to load: the file is made shorter, and then each byte that was handed over is read.
STAND_IN = r"""
#define _POSIX_C_SOURCE 200809L
#include "sfq_tables.h"
#include <stdio.h>
#include <unistd.h>

struct kept { void *at; };
static const char *path;
static int database;

void sfq_proved_table_count(struct kept kept, size_t *count, struct kept *back)
{
    *count = 1;
    *back = kept;
}

uint32_t sfq_proved_load(struct kept kept, size_t table, const uint8_t *text, size_t length, sfq_tables_fault *fault, struct kept *back)
{
    size_t at, sum = 0;
    (void)table, (void)fault;
    if (truncate(path, 0) != 0)
        return 99;
    for (at = 0; at < length; at++)
        sum += text[at];
    printf("%zu bytes, sum %zu\n", length, sum);
    *back = kept;
    return 0;
}

int main(int count, char **words)
{
    sfq_database it = { &database };
    path = words[count - 1];
    return sfq_load_file(&it, 0, path, NULL);
}
"""


class Loading(unittest.TestCase):
    @needs("gcc", "cc")
    def test_a_file_that_becomes_shorter_while_it_is_loaded(self):
        """Of each size all bytes are handed over, and no signal ends the process: that of a page, and those beside it."""
        with tempfile.TemporaryDirectory(prefix="sfq-changing-") as room:
            write(f"{room}/stand_in.c", STAND_IN)
            c = f"{ROOT}/bindings/c"
            # The other proved calls, which nothing here makes.
            others = set(re.findall(r"sfq_proved_\w+", read(f"{c}/sfq_tables.c"))) - set(re.findall(r"sfq_proved_\w+", STAND_IN))
            write(f"{room}/others.c", "".join(f"void {it}(void);\nvoid {it}(void) {{}}\n" for it in sorted(others)))
            words = ["cc", "-std=c11", f"-I{c}", f"{room}/stand_in.c", f"{room}/others.c", f"{c}/sfq_tables.c", "-o", f"{room}/it"]
            subprocess.run(words, check=True)
            for size in (0, 1, 4_095, 4_096, 4_097, 65_536, 1_000_000):
                with open(f"{room}/t.csv", "wb") as file:
                    file.write(b"a" * size)
                ran = subprocess.run([f"{room}/it", f"{room}/t.csv"], capture_output=True, text=True)
                self.assertEqual((ran.returncode, ran.stdout), (0, f"{size} bytes, sum {97 * size}\n"), size)


class OverLibrary(engine_rows.WithLibrary):
    def test_a_file_that_changes_later(self):
        """Rows are those that were loaded, also of a query that is half done."""
        with tempfile.TemporaryDirectory(prefix="sfq-changing-") as room:
            write(f"{room}/schema.sql", "CREATE TABLE t (id INTEGER PRIMARY KEY, name TEXT, geom POINT)")
            write(f"{room}/t.csv", "id,name,geom\n" + "".join(f"{at},name {at},POINT({at} 1)\n" for at in range(5_000)))
            with sfq.connect(f"{room}/schema.sql") as db:
                query = "SELECT id, name, geom FROM t"
                cursor = db.execute(query)
                rows = cursor.fetchmany(10)
                for change in (lambda: os.truncate(f"{room}/t.csv", 0), lambda: write(f"{room}/t.csv", "x"), lambda: os.remove(f"{room}/t.csv")):
                    change()
                    self.assertEqual(db.execute(query).fetchall(), [(at, f"name {at}", sfq.Geometry(f"POINT({at} 1)")) for at in range(5_000)])
                rows += cursor.fetchall()
                self.assertEqual([it[0] for it in rows], list(range(5_000)))

    def test_a_path_with_a_nul(self):
        """It isn't the path before the NUL."""
        with tempfile.TemporaryDirectory(prefix="sfq-changing-") as room:
            write(f"{room}/t.csv", "id\n1\n")
            db = sfq.connect("CREATE TABLE t (id INTEGER PRIMARY KEY)", {"t": f"{room}/t.csv\0.gz"})
            with self.assertRaisesRegex(sfq.OperationalError, "has a NUL, which no path has"):
                db.load()
        with self.assertRaisesRegex(sfq.OperationalError, "the schema can't be read: .* has a NUL"):
            sfq.connect("schema\0.sql")


if __name__ == "__main__":
    unittest.main()
