"""The pages of `sfq fault` and the words of faults elsewhere are those of docs/FAULTS.md, and the examples give the lines that they explain."""
import os
import re
import subprocess
import tempfile
import unittest
from unittest import mock

from support import ROOT, needs_build, read
import fault_pages
from sfq.geometry import faults
from sfq.tables import errors
import printed
import repository


def words_of(text):
    return " ".join(text.split())


def examples_of(page):
    """Returns the line and the commands of each example of a page."""
    found = []
    for part in page.split("\n\n"):
        lines = part.split("\n")
        if "  example:" in lines:
            at = lines.index("  example:") + 1
            end = next(it for it in range(at, len(lines)) if lines[it].startswith("  to do:"))
            found.append((lines[0], "\n".join(it[4:] for it in lines[at:end])))
    return found


class Pages(unittest.TestCase):
    def test_the_files_are_made_of_the_document(self):
        self.assertEqual(fault_pages.stale(), [], "run python3 tools/fault_pages.py")

    def test_a_file_that_is_stale_is_found(self):
        document = read(fault_pages.DOCUMENT)
        for old, new, code, files in (
            ("this ring touches or crosses itself", "this ring meets itself", "V3", ["validity_pages.rt", "code_lists.rt", "fault_words.h"]),
            ("name a table of the schema", "write the name of a table", "Q3", ["query_pages.rt", "fault_words.h"]),
        ):
            self.assertIn(old, document, code)
            with tempfile.NamedTemporaryFile("w", suffix=".md", encoding="utf-8") as file:
                file.write(document.replace(old, new))
                file.flush()
                with mock.patch.object(fault_pages, "DOCUMENT", file.name):
                    self.assertEqual(sorted(os.path.basename(it) for it in fault_pages.stale()), sorted(files), code)

    def test_what_why_says_to_do_is_in_the_document(self):
        self.assertEqual(fault_pages.unlike(), [])
        said = fault_pages.general_sentences()
        codes = {code for code, _ in said}
        self.assertLessEqual({*(f"V{it}" for it in range(1, 9)), "W2", "W3", "W4", "S2", "S3", "S4", "S5", "S6", "L2", "L4", "L9", "L10", "Q4", "Q6", "Q7"}, codes)
        with tempfile.NamedTemporaryFile("w", suffix=".md", encoding="utf-8") as file:
            file.write(read(fault_pages.DOCUMENT).replace("split the ring where it meets itself", "split it"))
            file.flush()
            with mock.patch.object(fault_pages, "DOCUMENT", file.name):
                self.assertEqual([it[:3] for it in fault_pages.unlike()], ["V3:"])

    def test_words_of_the_bindings(self):
        """The words of a code hold of each of its faults, and end without a stop."""
        words = {**faults.MEANINGS, **errors.MEANINGS}
        self.assertEqual(list(words), list(fault_pages.pages()))
        for code, it in words.items():
            self.assertRegex(it, r"\A[a-z0-9][^;`|]*[^.;:,]\Z", code)
            self.assertNotIn("here reading failed", it)

    def test_each_code_of_the_document_has_a_page_and_no_other(self):
        codes = set(re.findall(r"`sfq: [^`]*?\b([SLQWV]\d+)\b", read(f"{ROOT}/docs/FAULTS.md")))
        self.assertEqual(set(fault_pages.pages()), codes)
        listed = re.search(r"const CODES: \[FaultCode; 41\] = \[([^]]+)\];", read(f"{ROOT}/crates/text_commands/src/fault_codes.rt"))
        self.assertEqual(sorted(re.findall(r"\w+", listed[1])), sorted(codes))
        self.assertEqual(len(codes), 41)

    def test_each_page_has_the_words_of_its_rows(self):
        rows = fault_pages.rows_of(read(f"{ROOT}/docs/FAULTS.md"))
        self.assertGreater(len(rows), 45)
        pages = fault_pages.pages()
        for it in rows:
            page = words_of(pages[it.code])
            for part in (it.line, f"means: {it.means}", f"to do: {it.remedy}"):
                self.assertIn(part, page, it.code)
        for code, page in pages.items():
            self.assertTrue(page.startswith(f"{code}: "), code)
            self.assertLessEqual(max(map(len, page.split("\n"))), 78, code)
            self.assertNotRegex(page, r"[`\t]|\]\(", code)

    def test_no_example_writes_into_the_folder_of_the_reader(self):
        for code, page in fault_pages.pages().items():
            for _, commands in examples_of(page):
                for target in re.findall(r"(?:>|\bmkdir) *(\S+)", commands.replace("'", "")):
                    self.assertTrue(target.startswith('"$D/') or code[0] not in "SL", commands)
                self.assertEqual(code[0] in "SL", commands.startswith("D=$(mktemp -d)\n"), commands)

    def test_what_to_do_is_for_the_case(self):
        pages = {code: words_of(text) for code, text in fault_pages.pages().items()}
        for code, parts in (
            ("Q1", ["close the string", "write names without quotes and texts in single quotes"]), ("Q5", ["name a column of the schema", "write the alias"]),
            ("Q2", ["FROM t LEFT JOIN u isn't refused and joins as JOIN does"]), ("V1", ["two positions that differ", "a smaller step of the grid"]),
            ("L1", ["blanks count and case doesn't", "a file that is empty"]), ("L10", ["ask by sfq-scale"]), ("S1", ["byte order mark"]),
        ):
            for it in parts:
                self.assertIn(it, pages[code])
        self.assertNotIn("DISTINCT, outer joins", pages["Q2"])

    def test_each_text_of_an_example_is_in_its_page(self):
        """What the tests of the documents run as an example of a line, its page shows."""
        with tempfile.TemporaryDirectory(prefix="sfq-pages-") as room:
            shown = printed.Faults(room).read("docs/FAULTS.md", read(f"{ROOT}/docs/FAULTS.md"))
        lines = {it.text.strip() for it in shown}
        for code, page in fault_pages.pages().items():
            for line, _ in examples_of(page):
                self.assertIn(line, lines, code)


class Examples(unittest.TestCase):
    """Each example of a page, run by a shell in a folder of its own."""

    ASKS_PROGRAM = True

    @needs_build
    def test_each_example_gives_its_line(self):
        count = 0
        for code, page in fault_pages.pages().items():
            for line, commands in examples_of(page):
                with self.subTest(code=code, line=line), tempfile.TemporaryDirectory(prefix="sfq-page-") as room:
                    if code[0] == "Q":
                        printed.Faults(room).database(printed.Faults.QUERIED, "id,pop,name,geom\n")
                        room = f"{room}/1"
                    script = f'sfq() {{ "{repository.PROGRAM}" "$@"; }}\n{commands}\n'
                    ran = subprocess.run(["bash", "-c", script], cwd=room, capture_output=True, text=True)
                    self.assertEqual(ran.stderr, line + "\n")
                    count += 1
        self.assertGreater(count, 35)


if __name__ == "__main__":
    unittest.main()
