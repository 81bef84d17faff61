"""The cases of tests/wrong_inputs: what sfq writes of wrong inputs, without --why, and with it where the command has that switch."""
import collections
import functools
import os
import pty
import re
import subprocess
import tempfile
import unittest

from support import ROOT, needs_build, read, read_terminal, write

import answers
import repository
import wrong_cases

SWITCH = "--why"
COMMANDS = ("run", "relate", "why", "pairs", "check")
# What can come at a place of a query, by the phrase that says so.
COMING = {
    "SELECT": ["SELECT"],
    "a column, * or COUNT(*)": ["id", "*", "COUNT(*)"],
    "a column": ["id"],
    "a comma or FROM": [",", "FROM"],
    "FROM and a table": ["FROM parcel"],
    "a column's name": ["id"],
    "a table's name": ["parcel"],
    "an alias": ["q"],
    "JOIN": ["JOIN"],
    "a comma, JOIN, WHERE or LIMIT": [",", "JOIN", "WHERE", "LIMIT"],
    "WHERE or LIMIT": ["WHERE", "LIMIT"],
    "ON and a condition": ["ON id = 1"],
    "a condition": ["id = 1"],
    "a comparison or IS NULL": ["= 1", "IS NULL"],
    "a value": ["3"],
    "digits": ["3"],
    "NULL or NOT NULL": ["NULL", "NOT NULL"],
    "NULL": ["NULL"],
    "1 or 0": ["1", "0"],
    "AND, OR, WHERE or LIMIT": ["AND", "OR", "WHERE", "LIMIT"],
    "AND, OR or LIMIT": ["AND", "OR", "LIMIT"],
    "AND, OR or )": ["AND", "OR", ")"],
    ")": [")"],
    "a column or ST_GeomFromText": ["geom", "ST_GeomFromText('POINT(1 1)')"],
    "a comma": [","],
    "a text in single quotes": ["'POINT(1 1)'"],
    "a number": ["5"],
    "the query's end": [],
}


@functools.lru_cache(maxsize=None)
def played():
    """Returns the cases with what sfq writes of each without the switch, what with it, and the help of each command."""
    cases = wrong_cases.all_cases()
    with tempfile.TemporaryDirectory(prefix="sfq-wrong-") as room:
        calls = [it.make(f"{room}/{at}") for at, it in enumerate(cases)]
        switched = [[it[0], SWITCH, *it[1:]] for it in calls]
        helps = [[it, "--help"] for it in COMMANDS]
        given = answers.ask([*calls, *switched, *helps])
        folders = [f"{room}/{at}" for at in range(len(cases))]
    first, second, texts = given[: len(cases)], given[len(cases) : -len(helps)], given[-len(helps) :]
    can = {it for it, text in zip(COMMANDS, texts) if SWITCH in text.out.decode()}
    # check had a switch of this name before the others, which adds less.
    can -= {"check"} if "run" not in can else set()
    return list(zip(cases, first, second, folders)), can


def source(name):
    """Returns the text of a module of the crate that says the sentences."""
    return read(f"{ROOT}/crates/explanations/src/{name}.rt")


class Cases(unittest.TestCase):
    """What the files say, without the program."""

    def test_each_code_has_two_cases(self):
        cases = wrong_cases.all_cases()
        count = collections.Counter(code for case in cases for code in set(re.findall(r"\b([SLQWV]\d+)\b", case.fault)))
        codes = set(re.findall(r"`sfq: [^`]*?\b([SLQWV]\d+)\b", read(f"{ROOT}/docs/FAULTS.md")))
        self.assertEqual({it: count[it] for it in codes if count[it] < 2}, {})
        faults = " ".join(it.fault for it in cases)
        for it in ("schema unreadable", "parcel unreadable", "query unreadable", "first unreadable", "pairs unreadable"):
            self.assertIn(f"sfq: {it}\n", faults)

    def test_each_word_from_elsewhere_has_a_case(self):
        """The words that have a sentence of their own, by the tables of the crate that says it."""
        cases = wrong_cases.all_cases()
        texts = [it.decode(errors="replace") for case in cases for it in case.files.values() if it]
        asked = "\n".join([*(it for case in cases for it in case.words), *texts])
        found = re.findall(r"^pub\(crate\) const \w+: \[&str; \d+\] = \[\n(.*?)^\];", source("sentences"), re.M | re.S)
        words = " ".join(re.findall(r'^    "([\w ]+) => ', "".join(found), re.M)).split()
        self.assertTrue(len(found) >= 9 and len(words) >= 170, (len(found), words))
        ends = {it: "" if it.endswith("_") else r"\b" for it in words}
        self.assertEqual([it for it in words if not re.search(rf"\b{it}{ends[it]}", asked, re.I)], [])

    def test_what_can_come_has_two_cases(self):
        """Each thing that can come at a place of a query, of a schema and of a geometry's text: places.txt has cases under its name."""
        parts = re.split(r"^# (\w+ \w+)\.$", read(f"{wrong_cases.FOLDER}/places.txt"), flags=re.M)
        found = {name: len(re.findall(r"^sfq ", part, re.M)) for name, part in zip(parts[1::2], parts[2::2])}
        enums = (("Query", "expected", "Expected"), ("Schema", "schema_explanations", "Expected"), ("Text", "geometry_sentences", "Coming"))
        names = []
        for what, module, enum in enums:
            text = source(module)
            body = text[text.index(f"enum {enum} {{") :]
            names += [f"{what} {it}" for it in re.findall(r"^    (\w+),$", body[: body.index("\n}\n")], re.M)]
        self.assertGreaterEqual(len(names), 54)
        self.assertEqual([it for it in names if found.get(it, 0) < 2], [])

    def test_each_row_is_said_of_a_case(self):
        """The sentences of the tables, with anything for what is there. A record of 34 MB has a test below; of the key of an
        earlier record more is said where that record is found, as it is in a file that doesn't change; and of types where these are known, as
        they are of a query over its schema."""
        elsewhere = [
            "the record that begins here has more than 34603008 bytes", "keys are unique, and an earlier record has this one", "the types don't fit"
        ]
        said = [it.removeprefix("sfq: ").removeprefix("note: ") for case in wrong_cases.all_cases() for it in case.added]
        rows = re.findall(r'^ *"([^"\n]*(?:\\"[^"\n]*)*)",?;?$|(?:=>|=) "([^"\n]+)"[,;]$', source("sentences"), re.M)
        sentences = [re.sub(r"^.*? => ", "", one or other).replace('\\"', '"') for one, other in rows]
        self.assertGreaterEqual(len(sentences), 230)
        missing = []
        for it in sentences:
            pattern = re.sub(r"\\\{=?-?\\\}", ".*", re.escape(it).replace(r"\{\-\}", "").replace(r"\{=\}", r"\{\}"))
            if not it.startswith(tuple(elsewhere)) and not any(re.search(pattern, line) for line in said):
                missing.append(it)
        self.assertEqual(missing, [])

    def test_what_can_come_is_said_of_two_texts(self):
        """The phrases for what can come at a place, and the sentences of single tokens, each of which a case has."""
        said = [it for case in wrong_cases.all_cases() for it in case.added]
        text = source("sentences")
        text = text[text.index("fn to_come") :]
        phrases = re.findall(r'"([^"]+ (?:is|are) to come)"', text[: text.index("\n}\n")])
        self.assertGreaterEqual(len(phrases), 20)
        self.assertEqual([it for it in phrases if sum(it in line for line in said) < 2], [])
        text = source("sentences")
        rows = text[text.index("fn tokens_at") : text.index("const STATEMENTS")]
        sentences = re.findall(r'"[^"\n]* => ([^"\n]+)"', rows)
        self.assertGreaterEqual(len(sentences), 40)
        self.assertEqual([it for it in sentences if f"sfq: {it}" not in said], [])

    def test_there_are_enough(self):
        count = collections.Counter(it.name.partition(":")[0] for it in wrong_cases.all_cases())
        for name, least in (("tables.txt", 50), ("schemas.txt", 30), ("queries.txt", 100), ("geometries.txt", 40)):
            self.assertGreaterEqual(count[name], least, name)

    def test_the_form_of_what_is_added(self):
        for it in wrong_cases.all_cases():
            with self.subTest(case=it.name):
                self.assertLessEqual(len(it.added), 8)
                for line in it.added:
                    self.assertLessEqual(len(line), 200)
                    self.assertRegex(line, r"\A(sfq: \S.*[^. ]| *\d+ \| ?.*| +\| +\^)\Z")

    def test_places_are_those_of_the_faults(self):
        for it in filter(lambda it: it.fault, wrong_cases.all_cases()):
            with self.subTest(case=it.name):
                self.assertEqual([line for line in it.added if not line.startswith("sfq: ")], wrong_cases.shown_place(it))


class Played(unittest.TestCase):
    """What the proved program writes: the unproved one would take too long over so many cases."""

    ASKS_PROGRAM = True

    @needs_build
    def test_without_the_switch(self):
        for case, given, _, _ in played()[0]:
            with self.subTest(case=case.name):
                self.assertEqual((given.out.decode(), given.err.decode(), given.status), (case.out, case.fault, case.status))

    @needs_build
    def test_with_the_switch(self):
        found, can = played()
        skipped = []
        for case, _, given, folder in found:
            if case.words[0] not in can or case.is_later:
                skipped.append(case.name)
                continue
            with self.subTest(case=case.name):
                added = "".join(f"{it}\n" for it in case.added).replace("$DIR", folder)
                self.assertEqual((given.out.decode(), given.err.decode(), given.status), (case.out, case.fault + added, case.status))
        if skipped:
            self.skipTest(f"{SWITCH} says nothing or something else yet of {len(skipped)} cases: {' '.join(skipped)}")


    @needs_build
    def test_what_is_said_to_come_can_come(self):
        """Behind what is before the place, each token that the sentence says can come has no fault at its first byte."""
        asked, fronts = [], []
        with tempfile.TemporaryDirectory(prefix="sfq-coming-") as room:
            for at, case in enumerate(wrong_cases.all_cases()):
                place = re.match(r"sfq: Q2 at (\d+)\n", case.fault)
                phrase = re.search(r"(?:can't be here: |the query ends where )([^:]*) (?:is|are) to come\Z", "\n".join(case.added))
                if not place or not phrase:
                    continue
                words = case.make(f"{room}/{at}")
                front = wrong_cases.text_of(case, case.words[3])[: int(place[1])].decode()
                for token in COMING[phrase[1]]:
                    asked.append([*words[:3], f"{front} {token}"])
                    fronts.append(len(front.encode()) + 1)
            given = answers.ask(asked)
        self.assertGreaterEqual(len(asked), 80)
        for words, begin, it in zip(asked, fronts, given):
            place = re.match(r"sfq: Q2 at (\d+)\n", it.err.decode())
            with self.subTest(query=words[3]):
                self.assertTrue(place is None or int(place[1]) > begin, it.err)


class Streams(unittest.TestCase):
    """What the switch adds where a file of a case can't be the input: nothing, or well-formed lines."""

    ASKS_PROGRAM = True

    def run_with_switch(self, words, given="", **how):
        """Runs the program with the switch, and returns what it wrote to standard error. Skips the test where it has no such switch."""
        if SWITCH not in subprocess.run([repository.PROGRAM, "run", "--help"], capture_output=True, text=True).stdout:
            self.skipTest(f"sfq run has no {SWITCH}")
        words = [repository.PROGRAM, words[0], SWITCH, *words[1:]]
        return subprocess.run(words, input=given, stderr=subprocess.PIPE, text=True, timeout=60, **how).stderr

    def look(self, said, fault):
        """Looks at the fault's line and the form of those behind it."""
        first, *added = said.splitlines()
        self.assertEqual(first, fault)
        self.assertLessEqual(len(added), 8)
        for it in added:
            self.assertRegex(it, r"\Asfq: .")

    @needs_build
    def test_the_environment_asks(self):
        self.run_with_switch(["relate", "POINT(1 2)", "POINT(1 2)"])
        for asked, lines in (("1", 4), ("0", 1), ("", 1)):
            ran = subprocess.run([repository.PROGRAM, "relate", "POINT(1 x)", "POINT(1 2)"], env={**os.environ, "SFQ_WHY": asked}, capture_output=True)
            self.assertEqual((ran.returncode, len(ran.stderr.splitlines())), (5, lines), asked)

    @needs_build
    def test_colour_on_a_terminal(self):
        self.run_with_switch(["relate", "POINT(1 2)", "POINT(1 2)"])
        for variables, is_coloured in (({}, True), ({"NO_COLOR": "1"}, False), ({"NO_COLOR": ""}, True)):
            ours, theirs = pty.openpty()
            words = [repository.PROGRAM, "relate", SWITCH, "POINT(1 x)", "POINT(1 2)"]
            plain = {name: it for name, it in os.environ.items() if name != "NO_COLOR"}
            subprocess.run(words, env={**plain, **variables}, stderr=theirs, timeout=60)
            os.close(theirs)
            first, *added = read_terminal(ours).decode().replace("\r", "").splitlines()
            os.close(ours)
            self.assertEqual(first, "sfq: first W1 at 8")
            self.assertEqual(len(added), 3)
            for it in added:
                self.assertEqual((it.startswith("\x1b[36m"), it.endswith("\x1b[0m"), it.count("\x1b")), (is_coloured, is_coloured, 2 * is_coloured))

    @needs_build
    def test_pairs_from_standard_input(self):
        said = self.run_with_switch(["pairs", "-"], given="POINT(1 x),POINT(1 2)\n", stdout=subprocess.DEVNULL)
        self.assertEqual(said, "sfq: record 1: first: x isn't a number: coordinates are whole numbers\n")

    @needs_build
    def test_an_empty_path(self):
        for words, fault in ((["pairs", ""], "pairs"), (["relate", "@", "POINT(1 2)"], "first"), (["check", "", "d"], "schema")):
            said = self.run_with_switch(words, stdout=subprocess.DEVNULL)
            self.assertEqual(said, f"sfq: {fault} unreadable\nsfq: the path is empty: name a file\n")

    @needs_build
    def test_notes_on_a_query_from_standard_input(self):
        with tempfile.TemporaryDirectory(prefix="sfq-once-") as room:
            write(f"{room}/schema.sql", "CREATE TABLE t (id INTEGER PRIMARY KEY, name TEXT)")
            write(f"{room}/t.csv", "id,name\n1,a\n")
            words = ["run", f"{room}/schema.sql", room]
            said = self.run_with_switch([*words, "@-"], given="SELECT id FROM t WHERE name = NULL", stdout=subprocess.DEVNULL)
            self.assertEqual(said.splitlines()[2], "sfq: note: a comparison with NULL never holds: write IS NULL")
            with open("/dev/full", "wb") as full:
                said = self.run_with_switch([*words, "SELECT id FROM t WHERE name = NULL"], stdout=full)
            self.assertEqual(said, "sfq: write failed\n")

    @needs_build
    def test_pairs_from_a_named_pipe(self):
        with tempfile.TemporaryDirectory(prefix="sfq-pipe-") as room:
            os.mkfifo(f"{room}/a.csv")
            ours = subprocess.Popen(["sh", "-c", f"printf 'POINT(1 x),POINT(1 2)\\n' > {room}/a.csv"])
            said = self.run_with_switch(["pairs", f"{room}/a.csv"], stdout=subprocess.DEVNULL)
            ours.wait(timeout=60)
        self.assertEqual(said, "sfq: record 1: first: x isn't a number: coordinates are whole numbers\n")

    @needs_build
    def test_many_pairs_that_are_refused(self):
        with tempfile.TemporaryDirectory(prefix="sfq-pairs-") as room:
            write(f"{room}/pairs.csv", "POINT(1 2),POINT(1 2)\n" + 150 * "POINT(1 2),POINT(1.5 2)\n")
            said = self.run_with_switch(["pairs", f"{room}/pairs.csv"], stdout=subprocess.DEVNULL).splitlines()
        self.assertEqual(len(said), 100)
        for number, it in enumerate(said, 2):
            self.assertEqual(it, f"sfq: record {number}: second: 1.5 isn't whole: scale the coordinates to a grid of whole numbers, of centimetres say; sfq-import does")

    @needs_build
    @unittest.skipUnless(os.geteuid(), "root may read every file")
    def test_a_file_that_may_not_be_read(self):
        with tempfile.TemporaryDirectory(prefix="sfq-closed-") as room:
            write(f"{room}/a.wkt", "POINT(1 2)")
            os.chmod(f"{room}/a.wkt", 0)
            said = self.run_with_switch(["relate", f"@{room}/a.wkt", "POINT(1 2)"], stdout=subprocess.DEVNULL)
        self.assertEqual(said, f"sfq: first unreadable\nsfq: {room}/a.wkt may not be read by this user\n")

    @needs_build
    def test_an_output_that_takes_no_more(self):
        with open("/dev/full", "wb") as full:
            said = self.run_with_switch(["relate", "POINT(1 2)", "POINT(1 2)"], stdout=full)
        self.look(said, "sfq: write failed")

    @needs_build
    def test_a_record_that_is_too_long(self):
        with tempfile.TemporaryDirectory(prefix="sfq-long-") as room:
            write(f"{room}/schema.sql", "CREATE TABLE t (id INTEGER PRIMARY KEY)")
            write(f"{room}/t.csv", "id" + 35 * ",a" + "\n1" + 35 * f",{1000000 * 'x'}" + "\n")
            said = self.run_with_switch(["check", f"{room}/schema.sql", room], stdout=subprocess.DEVNULL).splitlines()
        sentence = "sfq: the record that begins here has more than 34603008 bytes: split it, or keep its texts outside the table"
        self.assertEqual((said[0], said[-1]), ("sfq: t L11", sentence))

    @needs_build
    def test_a_table_that_is_a_pipe(self):
        with tempfile.TemporaryDirectory(prefix="sfq-pipe-") as room:
            write(f"{room}/schema.sql", "CREATE TABLE t (id INTEGER PRIMARY KEY)")
            os.symlink("/dev/stdin", f"{room}/t.csv")
            words = ["check", f"{room}/schema.sql", room]
            of_pipe = self.run_with_switch(words, given="id\nx\n", stdout=subprocess.DEVNULL)
            os.remove(f"{room}/t.csv")
            write(f"{room}/t.csv", "id\nx\n")
            of_file = self.run_with_switch(words, stdout=subprocess.DEVNULL)
        self.assertEqual(of_pipe, of_file)
        self.assertTrue(of_pipe.startswith("sfq: t L5 record 1\n  2 | x\n"), of_pipe)


if __name__ == "__main__":
    unittest.main()
