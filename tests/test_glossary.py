"""CONTRIBUTING's glossary: a dozen words, each of which a page links at its first use."""
import glob
import os
import re
import unittest

from support import ROOT, read

# The words that have no other sense in prose. The others, such as work, are linked where they are used in that of the glossary.
PLAIN = ("candidate", "conjunct", "gap", "law", "probe", "stretch", "witness")
# Pages in which one of these words has its usual sense: a gap in a register is between its areas.
USUAL = {("docs/DATA.md", "gap")}
# The pages of the library and its bindings, whose readers don't change sfq.
LIBRARY = ("C", "JAVASCRIPT", "LIBRARY", "POSTGRESQL", "PYTHON", "SQLITE")
# Headings, code in blocks and lines, the addresses of links, and what a link to another page says.
HIDDEN = re.compile(r"^```.*?^```|^#.*?$|`[^`\n]*`|\]\([^)]*\)|^\[w\]: .*$", re.M | re.S)
LINK = re.compile(r"\[([^\]`]*)\](?:\(((?:\.\./)?CONTRIBUTING\.md#words)\)|\[w\])")
BY_NAME = "[w]: ../CONTRIBUTING.md#words\n"


def words():
    """Returns the words of the glossary."""
    table = read(f"{ROOT}/CONTRIBUTING.md").partition("\n## Words\n")[2]
    return re.findall(r"^\| (\w+) \| .* \|$", table, re.M)[1:]


def pages():
    """Returns the README and the pages of docs, but for those of the library and its bindings, by their paths."""
    found = [it for it in glob.glob(f"{ROOT}/docs/*.md") if os.path.basename(it)[:-3] not in LIBRARY]
    return [f"{ROOT}/README.md", *sorted(found)]


def prose(page):
    """Returns a page with blanks for what isn't prose."""
    return HIDDEN.sub(lambda it: " " * len(it.group()), page)


def first_use(text, word):
    """Returns where a text first uses a word, or None."""
    found = re.search(rf"\b{word}(?:s|es)?\b", text, re.I)
    return found and found.start()


class Glossary(unittest.TestCase):
    def test_a_dozen_words_in_order(self):
        self.assertEqual((len(words()), words()), (12, sorted(words())))
        self.assertLessEqual(set(PLAIN), set(words()))

    def test_links_are_of_its_words(self):
        forms = {form for it in words() for form in (it, f"{it}s", f"{it}es")}
        for path in pages():
            page = read(path)
            found = [it[1].lower() for it in LINK.finditer(page)]
            with self.subTest(path=os.path.relpath(path, ROOT)):
                self.assertLessEqual(set(found), forms | {"the glossary"})
                self.assertEqual("][w]" in page, page.endswith(BY_NAME))

    def test_each_word_is_linked_once(self):
        for path in pages():
            found = [re.sub("(?:es|s)$", "", it[1].lower()) for it in LINK.finditer(read(path))]
            with self.subTest(path=os.path.relpath(path, ROOT)):
                self.assertEqual(sorted(found), sorted(set(found)))

    def test_the_first_use_is_linked(self):
        for path in pages():
            page = read(path)
            linked, text = {it.start(1) for it in LINK.finditer(page)}, prose(page)
            for word in (it for it in PLAIN if (os.path.relpath(path, ROOT), it) not in USUAL):
                with self.subTest(path=os.path.relpath(path, ROOT), word=word):
                    found = first_use(text, word)
                    line = page.count("\n", 0, found) + 1 if found is not None else 0
                    self.assertTrue(found is None or found in linked, f"{os.path.relpath(path, ROOT)}:{line}: link this first use of {word} to the glossary")


if __name__ == "__main__":
    unittest.main()
