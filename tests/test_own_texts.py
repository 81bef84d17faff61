"""Help, the version, the pages of faults, their list and what is said of mistaken words, which ./sfq prints at once: they are the program's own texts."""
import os
import subprocess
import sys
import tempfile
import unittest
from unittest import mock

from support import ROOT, asked, write

import fault_pages
import own_texts
import repository
import similarity


class Recorded(unittest.TestCase):
    def test_the_recorded_help_is_of_the_present_words(self):
        self.assertIsNotNone(own_texts.help_of("sfq"), "run python3 tools/own_texts.py")
        self.assertEqual(sorted(os.listdir(own_texts.FOLDER)), sorted([*(f"{it}.txt" for it in ("sfq", *own_texts.COMMANDS)), "sum.txt"]))

    def test_each_page_is_the_one_in_the_source(self):
        for code, text in fault_pages.pages().items():
            for it in (code, code.lower()):
                self.assertEqual(own_texts.text_of(["fault", it]), own_texts.Text(text, "", 0))

    def test_the_list_has_a_line_for_each_code(self):
        found = own_texts.text_of(["fault"])
        self.assertEqual((found.err, found.status), ("", 0))
        self.assertEqual([it.split(": ")[0] for it in found.out.splitlines()], list(fault_pages.pages()))

    def test_the_last_code_of_pasted_words(self):
        for wanted, *words in (
            ("V3", "V3 0"), ("V3", "V3", "0"), ("W4", "first W4"), ("W4", "first", "w4"), ("V3", "V3 "), ("V3", "sfq: parcel row 3: V3 0"),
            ("V3", *"sfq: parcel row 3: V3 0".split()), ("V3", "t L6 record 2 V3 0"), ("V4", "V3", "V4"), ("L8", "sfq: V1 L8 record 2"), ("V3", "V3 0", "", "x"),
        ):
            self.assertEqual(own_texts.text_of(["fault", *words]), own_texts.Text(fault_pages.pages()[wanted], "", 0), words)

    def test_codes_that_are_none(self):
        for it in ("", "V", "V9", "V03", "3", "X1", "L12", "V3:", "V3\t0", " ", "sfq: out of memory", "é"):
            found = own_texts.text_of(["fault", it])
            self.assertEqual((found.out, found.status), ("", 2), it)
            self.assertRegex(found.err, r"\Asfq: unknown code: there are S1 to S6, .*\n\Z")

    def test_what_else_is_asked_is_left_to_the_program(self):
        for it in (["fault", "V3", "-x"], ["fault", "--", "V3"], ["help", "help"], ["help", "rum"], ["relate", "--help", "x"], ["-x"], ["--", "rum"]):
            self.assertIsNone(own_texts.text_of(it), it)
        whole = ["run", "a", "b", "c"], ["check", "a", "b"], ["relate", "a", "b"], ["why", "a"], ["why", "a", "b"], ["pairs", "a"]
        other = ["run", "-x"], ["run", "--"], ["run", "--why", "--why"], ["fault", "--why"], ["why", "-1"], ["check", "a", "b", "c"], ["run", "--why=a"]
        for it in (*whole, *other, ["r\udc80"], ["fault", "\udc80"]):
            self.assertIsNone(own_texts.text_of(it), it)

    def test_an_unknown_command(self):
        """The tips are those of the program; the words are of misspellings."""
        tips = {"rum": "a similar subcommand exists: 'run'", "h": "some similar subcommands exist: 'check', 'help'", "xyz": "", "-": "", "": ""}
        for word, tip in tips.items():
            lines = [f"error: unrecognized subcommand '{word}'", "", *([f"  tip: {tip}", ""] if tip else []), "Usage: sfq <COMMAND>"]
            self.assertEqual(own_texts.text_of([word, "--help"]), own_texts.Text("", "\n".join([*lines, "", "For more information, try '--help'.", ""]), 2))

    def test_missing_words(self):
        for words, missing, usage in (
            (["run", "a"], ["<DIR>", "<QUERY>"], "run <SCHEMA> <DIR> <QUERY>"),
            (["check", "a", "--why"], ["<DIR>"], "check --why <SCHEMA> <DIR>"),
            (["relate", "-"], ["<WKT>"], "relate <WKT> <WKT>"),
            (["why", "--why"], ["<WKT>"], "why --why <WKT> [WKT]"),
        ):
            lines = ["error: the following required arguments were not provided:", *(f"  {it}" for it in missing), "", f"Usage: sfq {usage}"]
            self.assertEqual(own_texts.text_of(words), own_texts.Text("", "\n".join([*lines, "", "For more information, try '--help'.", ""]), 2))

    def test_the_similarity_of_words(self):
        """The values are those of the literature, and of the tests of strsim."""
        for one, other, wanted in (("", "", 1), ("", "a", 0), ("a", "", 0), ("dixon", "dicksonx", 0.767), ("martha", "marhta", 0.944), ("jones", "johnson", 0.790)):
            self.assertAlmostEqual(similarity.jaro(one, other), wanted, 3)

    def test_help_of_other_words_is_left_to_the_program(self):
        with tempfile.TemporaryDirectory() as room:
            write(f"{room}/sfq.txt", "old\n")
            write(f"{room}/sum.txt", f"{'0' * 64}\n")
            with mock.patch.object(own_texts, "FOLDER", room):
                for it in (["--help"], ["rum"], ["run"]):
                    self.assertIsNone(own_texts.text_of(it), it)


class AtOnce(unittest.TestCase):
    def test_no_build_is_made(self):
        """Where there is no command rt, no build can be made."""
        for words in (["--help"], [], ["--version"], ["help", "run"], ["pairs", "-h"], ["fault"], ["fault", "first", "V3 0"], ["fault", "Q99"], ["rum"], ["run", "--why"]):
            ran = subprocess.run([sys.executable, "-B", f"{ROOT}/tools/unproved.py", *words], capture_output=True, text=True, env={"PATH": "/nowhere"})
            notice = "sfq: not the proved program, which ./build makes\n" if words == ["--version"] else ""
            wanted = own_texts.text_of(words)
            self.assertEqual(own_texts.Text(ran.stdout, ran.stderr, ran.returncode), wanted._replace(err=notice + wanted.err))


class OfTheProgram(unittest.TestCase):
    ASKS_PROGRAM = True

    def test_the_texts_are_those_of_the_program(self):
        _, _, helps = asked()
        count = 0
        for words, given in helps.items():
            known = own_texts.text_of(words)
            if known:
                self.assertEqual((given.out.decode(), given.err.decode(), given.status), known, words)
                count += 1
        self.assertGreaterEqual(count, 40)
        self.assertEqual(own_texts.version(), f"sfq {repository.version()}\n")


if __name__ == "__main__":
    unittest.main()
