"""Tables and schemas that never end, or whose fields and records are very long: what is refused."""
import os
import resource
import shutil
import subprocess
import tempfile
import threading
import unittest

from support import needs_build

from faults import sweeps

FIELD_BYTES = 1 << 20
RECORD_FIELDS = 100_000
RECORD_BYTES = 33 << 20
# How many bytes a pipe holds. So far past a limit the program may read, and as many more are written before it ends.
PIPE_BYTES = 1 << 16
SLACK = 3 * PIPE_BYTES
# How much memory a run may take that ends at a limit, in bytes.
ROOM = 128 << 20

SCHEMA = b"CREATE TABLE t (id INTEGER PRIMARY KEY, name TEXT, geom MULTIPOINT);"
HEADER = b"id,name,geom\n"
REFUSED = (b"", b"sfq: t L11\n", 6)


def loaded(rows):
    return f"t {rows}\n".encode(), b"", 0


def fault(line, status):
    return b"", f"sfq: {line}\n".encode(), status


class Endless(unittest.TestCase):
    ASKS_PROGRAM = True

    def setUp(self):
        self.folder = tempfile.mkdtemp(dir=sweeps.room())
        self.addCleanup(shutil.rmtree, self.folder)
        self.schema, self.table = f"{self.folder}/schema.sql", f"{self.folder}/t.csv"
        self.write(self.schema, SCHEMA)

    def write(self, path, text):
        with open(path, "wb") as file:
            file.write(text)

    def ask(self):
        """Returns what `check` writes within the memory that such a run may take, and its status."""
        ran = subprocess.run(
            [sweeps.program(), "check", "schema.sql", "."],
            cwd=self.folder,
            stdin=subprocess.DEVNULL,
            capture_output=True,
            timeout=sweeps.PATIENCE,
            preexec_fn=lambda: resource.setrlimit(resource.RLIMIT_AS, (ROOM, ROOM)),
        )
        return ran.stdout, ran.stderr, ran.returncode

    def loading(self, text):
        """Returns what `check` writes where the table's file has this text."""
        self.write(self.table, text)
        return self.ask()

    def fed(self, path, begin, piece):
        """Returns what `check` writes where a file is a pipe with a text and then a piece again and again.

        And how many bytes it took.
        """
        if os.path.lexists(path):
            os.remove(path)
        os.mkfifo(path)
        taken, pieces = [0], piece * (PIPE_BYTES // len(piece))

        def feed():
            with open(path, "wb", buffering=0) as pipe:
                try:
                    taken[0] += pipe.write(begin)
                    while True:
                        taken[0] += pipe.write(pieces)
                except BrokenPipeError:
                    pass

        thread = threading.Thread(target=feed, daemon=True)
        thread.start()
        said = self.ask()
        thread.join(sweeps.PATIENCE)
        self.assertFalse(thread.is_alive())
        os.remove(path)
        return said, taken[0]


class EndlessTables(Endless):
    @needs_build
    def test_pieces_that_come_again_and_again(self):
        record = HEADER + b"1,a,"
        for begin, piece, limit in (
            (b"", b"\n", RECORD_BYTES),
            (b"", b"\r\n", RECORD_BYTES),
            (b"", b"a", FIELD_BYTES),
            (b"", b"\0", FIELD_BYTES),
            (b"", b"a,", 2 * RECORD_FIELDS),
            (b"", b",", RECORD_FIELDS),
            (b"", b"a" * 10_000 + b",", RECORD_BYTES),
            (b'"', b"a\n", FIELD_BYTES),
            (b"", b'"', FIELD_BYTES),
            (b'\xef\xbb\xbf"', b"a\n", FIELD_BYTES),
            (b"\xef\xbb\xbf", b"\n", RECORD_BYTES),
            (HEADER, b"\n", RECORD_BYTES),
            (HEADER, b"\r", RECORD_BYTES),
            (record, b" ", FIELD_BYTES),
            (record, b"1,", 2 * RECORD_FIELDS),
            (record, b'"\n",', 4 * RECORD_FIELDS),
            (record + b'"', b'""\n,', FIELD_BYTES),
            (record + b'"MULTIPOINT(', b"1 1,", FIELD_BYTES),
            (record + b"\n2,b,", b'b"', FIELD_BYTES),
        ):
            with self.subTest(begin=begin, piece=piece[:4]):
                said, taken = self.fed(self.table, begin, piece)
                self.assertEqual(said, REFUSED)
                self.assertLessEqual(taken, len(begin) + limit + SLACK)

    @needs_build
    def test_records_that_never_end(self):
        for piece, said in ((b"1,a,\n", "t L10"), (b"1,a\n", "t L3 record 1"), (b"\n,,\n", "t L8 record 1")):
            with self.subTest(piece=piece):
                self.assertEqual(self.fed(self.table, HEADER, piece)[0], fault(said, 4))

    @needs_build
    def test_devices_without_end(self):
        os.symlink("/dev/zero", self.table)
        self.assertEqual(self.ask(), REFUSED)

    @needs_build
    def test_a_file_with_a_hole(self):
        # It has a terabyte of zeros, and takes no room on the disk.
        for begin in (b"", HEADER, HEADER + b'1,"'):
            self.write(self.table, begin)
            os.truncate(self.table, 1 << 40)
            with self.subTest(begin=begin):
                self.assertEqual(self.ask(), REFUSED)


class EndlessSchemas(Endless):
    @needs_build
    def test_a_schema_that_never_ends(self):
        self.write(self.table, HEADER)
        for begin, piece in ((b"", b"\n"), (b"", b","), (b'"', b"a"), (b"", b"\0"), (SCHEMA, b"--\n")):
            with self.subTest(begin=begin, piece=piece):
                said, taken = self.fed(self.schema, begin, piece)
                self.assertEqual(said, fault("S6", 3))
                self.assertLessEqual(taken, 65_537 + SLACK)
        os.symlink("/dev/zero", self.schema)
        self.assertEqual(self.ask(), fault("S6", 3))
        os.remove(self.schema)
        self.write(self.schema, SCHEMA)
        os.truncate(self.schema, 1 << 40)
        self.assertEqual(self.ask(), fault("S6", 3))


class Limits(Endless):
    @needs_build
    def test_a_field(self):
        for make in (lambda size: b"a" * size, lambda size: b'"' + b"\n" * (size - 2) + b'"'):
            for more, said in ((0, loaded(1)), (1, REFUSED)):
                for end in (b",\n", b","):
                    field = make(FIELD_BYTES + more)
                    with self.subTest(begin=field[:2], more=more, end=end):
                        self.assertEqual(self.loading(HEADER + b"1," + field + end), said)

    @needs_build
    def test_fields_of_a_record(self):
        for number, said in ((RECORD_FIELDS, loaded(1)), (RECORD_FIELDS + 1, REFUSED)):
            more = b"," * (number - 3)
            with self.subTest(number=number):
                self.assertEqual(self.loading(HEADER[:-1] + more + b"\n1,a," + more + b"\n"), said)

    @needs_build
    def test_bytes_of_a_record(self):
        # 33 more fields, of which the last fills the record. Of its end no byte counts.
        head = HEADER[:-1] + b"," * 33 + b"\n"
        begin = b"1,a" + b"," * 34
        for more, said in ((0, loaded(1)), (1, REFUSED)):
            left, fields = RECORD_BYTES - len(begin) + more, []
            while left:
                fields.append(b"x" * min(left, FIELD_BYTES))
                left -= len(fields[-1])
            record = b"1,a," + b"".join(b"," + it for it in fields) + b"," * (33 - len(fields))
            with self.subTest(more=more):
                self.assertEqual(self.loading(head + record + b"\n"), said)

    @needs_build
    def test_blank_lines(self):
        # They count with the record behind them, and the end of its line doesn't.
        for more, said in ((0, loaded(1)), (1, REFUSED)):
            for before, after in ((HEADER, b"1,a,\n"), (b"", HEADER + b"1,a,\n")):
                first = after.index(b"\n")
                with self.subTest(more=more, before=before):
                    blank = b"\n" * (RECORD_BYTES - first + more)
                    self.assertEqual(self.loading(before + blank + after), said)

    @needs_build
    def test_the_longest_spelling_of_a_geometry(self):
        # 10,000 positions of numbers of 40 bytes each.
        number = b"-" + b"0" * 29 + b"1" + b".00000000"
        self.assertEqual(len(number), 40)
        points = b", ".join([number + b" " + number] * 10_000)
        self.assertEqual(self.loading(HEADER + b'1,a,"MULTIPOINT(' + points + b')"\n'), loaded(1))


if __name__ == "__main__":
    unittest.main()
