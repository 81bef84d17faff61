"""The calls of sfq that documents and the manual page show print what they show."""
import re
import tempfile
import unittest

import support
import answers
import printed


class ShownCalls(unittest.TestCase):
    """Each call with its output, asked of the proved program, or else of the unproved one."""

    ASKS_PROGRAM = True

    def test_print_what_is_shown(self):
        shown, given, _ = support.asked()
        for it, answer in zip(shown, given):
            text = (answer.out + answer.err).decode()
            with self.subTest(place=it.place, call=it.words):
                if it.text is None:
                    self.assertEqual((answer.status, answer.err), (0, b""))
                else:
                    self.assertEqual(text, it.text)
                if it.status is not None:
                    self.assertEqual(answer.status, it.status)

    def test_each_document_shows_some(self):
        with tempfile.TemporaryDirectory(prefix="sfq-documents-") as room:
            paths = [it.place.partition(":")[0] for it in printed.everything(room)]
        for path, least in (("README.md", 2), ("examples/parcels/README.md", 15), ("examples/blue_lake/README.md", 13), ("docs/FAULTS.md", 45), ("packaging/man/sfq.1", 5)):
            self.assertGreaterEqual(paths.count(path), least, path)


class PagesOfTheLibrary(unittest.TestCase):
    """The pages that docs/LIBRARY.md links, one for each language. The tests of each language run the examples of its page."""

    def test_each_begins_with_an_example_and_its_output(self):
        for page, language in support.LANGUAGES.items():
            text = support.read(f"{support.ROOT}/docs/{page}.md")
            first, output = support.examples(page, language)[0]
            shown = f"```{language}\n{first}```\n"
            self.assertLessEqual(text.partition("```")[0].count("\n"), 7, page)
            self.assertTrue(text[text.index("```") :].startswith(shown), page)
            self.assertRegex(text.partition(shown)[2], rf"\A\n.*prints:\n\n```text\n{re.escape(output)}```\n", page)

    def test_the_first_table_of_the_library_page_links_each(self):
        table = support.read(f"{support.ROOT}/docs/LIBRARY.md").partition("\n|")[2].partition("\n\n")[0]
        self.assertEqual(re.findall(r"^\| \w+ \| \[(\w+)\]\(\1\.md\) \|", table, re.M), [*support.LANGUAGES])


class HowCallsAreFound(unittest.TestCase):
    def test_a_block_of_output_belongs_to_the_call_above_it(self):
        text = "```sh\n./sfq relate 'A B' C\n```\nprints\n\n```text\nx\n```\n```text\ny\n```\n"
        found = printed.of_shell_blocks("d", text)
        self.assertEqual([(it.words, it.text) for it in found], [(["relate", "A B", "C"], "x\n")])

    def test_a_block_below_another_heading_does_not(self):
        text = "```sh\n./sfq --help\nls\n./sfq check A B | head\n```\n## More\n```text\nx\n```\n"
        found = printed.of_shell_blocks("d", text)
        self.assertEqual([(it.words, it.text) for it in found], [(["--help"], None)])

    def test_running_text(self):
        found = printed.of_running_text("d", "So `./sfq relate A\nB` prints `FF`, and\n`./sfq --version`:\n\n```text\nsfq 1\n```\n")
        self.assertEqual([(it.words, it.text) for it in found], [(["relate", "A", "B"], "FF\n"), (["--version"], "sfq 1\n")])

    def test_a_manual_page(self):
        found = printed.of_manual("m", ".EX\n$ sfq relate \\(aqA\\(aq B\nFF\\-\n\n$ sfq \\-\\-help\n.EE\n")
        self.assertEqual([(it.words, it.text) for it in found], [(["relate", "A", "B"], "FF-\n"), (["--help"], None)])


class ProvedAndUnproved(unittest.TestCase):
    """The proved program and the unproved one write the same bytes and end with the same status."""

    ASKS_PROGRAM, IS_LONG, IN_GATE = True, True, True

    @support.needs_build
    def test_write_the_same(self):
        with tempfile.TemporaryDirectory(prefix="sfq-documents-") as room:
            calls = [it.words for it in printed.everything(room)]
            calls += [*support.HELP_CALLS, ["relate", "a", "b", "c"], ["relate", "--", "-1", "b"], ["check", "nothing.sql", "nowhere"]]
            proved, unproved = answers.by_program(calls), answers.by_unproved(calls)
        for words, one, other in zip(calls, proved, unproved):
            with self.subTest(call=words):
                self.assertEqual(one, other)
