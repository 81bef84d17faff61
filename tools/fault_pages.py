#!/usr/bin/env python3
"""Makes what else has the words of docs/FAULTS.md: the pages of `sfq fault`, and the words of faults of C, Python and JavaScript.

    python3 tools/fault_pages.py           writes them into crates/text_commands/src, and into bindings/python/sfq/fault_words.h
    python3 tools/fault_pages.py --check   says whether they are those of the document

A page has the document's sentences without Markdown, and each first example as a command that runs. The list has a line for
each code: how the first row of the code begins to say what it means. So has fault_words.h, with how that row begins to say what to
do: therefore the first row of a code begins with words that hold of each of its faults. The examples of the tables are run by the
tests of the documents, and the commands of the pages by tests/test_fault_pages.py.

What `--why` says is in rows of crates/explanations/src/sentences.rt. Where it says one thing of a code, what it says to do is how a
row of the document begins to say it, and `--check` says which isn't.
"""
import os
import re
import sys
import textwrap
from typing import Iterable, Optional

import printed
import repository

DOCUMENT = f"{repository.ROOT}/docs/FAULTS.md"
SOURCE = f"{repository.ROOT}/crates/text_commands/src"
WORDS = f"{repository.ROOT}/bindings/python/sfq/fault_words.h"
SENTENCES = f"{repository.ROOT}/crates/explanations/src/sentences.rt"
# Where faults are declared, each with its code, and the functions of SENTENCES that have a sentence for each; and the constants
# that have one.
DECLARED = ("table_model/src/faults.rt", "geometry_model/src/text_faults.rt", "geometry_model/src/validity_faults.rt")
FORMS = ("schema_form", "load_form", "query_form", "text_form", "validity_form")
CONSTANTS = {"SHORT_LINE": "V1"}
# What isn't general: a number with an exponent is still a fault of a number that isn't whole.
SPECIAL = ("{} has an exponent: write all its digits",)
WIDTH = 78
# The files of an example are in a folder of its own, for a reader may have files of these names.
ROOM, CHECK = "D=$(mktemp -d)", 'sfq check "$D/schema.sql" "$D"'

# What each letter of a code is about, with its status; the files of its pages; and sentences of the document that hold of all
# its lines.
TITLES = {
    "S": "the schema (status 3)",
    "L": "a table's data (status 4)",
    "L11": "a table's data (status 6)",
    "Q": "the query (status 5)",
    "W": "the text of a geometry (status 5, or 4 in a table's field)",
    "V": "a geometry that isn't valid (status 5, or 4 in a table's field)",
}
FILES = {"W": "text_pages", "V": "validity_pages", "S": "schema_pages", "L": "table_pages", "Q": "query_pages"}
NOTES = {
    "S": ["Bytes count from 0."],
    "L": ["t is the table's name as the schema spells it.", "Records count from 1, the first record after the header."],
    "Q": ["Bytes count from 0.", "The examples are over the tables t (id, pop, name, geom), u (id, pop) and v (id)."],
    "W": ["Bytes count within the geometry's own text.", "Bytes count from 0."],
    "V": ["Parts, rings and elements count from 0, and rings count through all polygons of a MULTIPOLYGON."],
}


class Row:
    """A row of the document that has a code: its line, what it means, an example and what to do."""

    def __init__(self, code: str, line: str, means: str, example: list[str], remedy: str) -> None:
        self.code, self.line, self.means, self.example, self.remedy = code, line, means, example, remedy


def plain(text: str) -> str:
    """Returns a text without its Markdown."""
    text = re.sub(r"\[([^\]]*)\]\([^)]*\)", r"\1", text)
    return " ".join(text.replace("`", "").replace("\\*", "*").split())


def rows_of(document: str) -> list[Row]:
    """Returns the rows of the document that have a code, in its order."""
    found: list[Row] = []
    header: list[str] = []
    for line in document.splitlines():
        if not line.startswith("|"):
            header = []
            continue
        cells = printed.cells_of(line)
        header = header or cells
        code = re.match(r"`sfq: (?:first |second |t )?([SLQWV]\d+)\b", cells[0])
        if code and len(cells) == 4:
            example = example_of(code[1], header[2], cells[0].strip("`"), cells[2])
            found.append(Row(code[1], plain(cells[0]), plain(cells[1]), example, plain(cells[3])))
    return found


def example_of(code: str, header: str, line: str, cell: str) -> list[str]:
    """Returns the first example of a cell as lines of commands, or in words where it has no text to run; none if it is empty."""
    first = (re.findall(r"(?:`[^`]*`|[^;`])+", cell) or [""])[0]
    texts = re.findall(r"`([^`]*)`", first)
    if not texts:
        return [plain(first)] if first.strip() else []
    if code[0] == "S":
        return [ROOM, *echoed(texts[0]), CHECK]
    if code[0] == "Q":
        return call(["sfq", "run", "schema.sql", "."], [quoted(texts[0])])
    if code[0] in "WV":
        pair = [quoted(texts[0]), '"POINT(0 0)"']
        return call(["sfq", "relate"], pair if "first" in line else pair[::-1])
    schema, table = printed.Faults.loaded(header, line, first.strip(), texts)
    made = 'mkdir "$D/t.csv"' if table is None else "printf '" + table.replace("\n", "\\n") + "' > \"$D/t.csv\""
    return [ROOM, *echoed(schema), *wrapped_text(made), CHECK]


def quoted(text: str) -> str:
    assert not set(text) & set('"$`\\!'), text
    return f'"{text}"'


def echoed(schema: str) -> list[str]:
    """Returns the commands that write a schema's text. A long one is cut at a blank, as echo joins its words by blanks."""
    lines, end = [], ' > "$D/schema.sql"'
    while len(f'echo "{schema}"{end}') > WIDTH - 4:
        cut = schema.rindex(" ", 0, WIDTH - 4 - len('echo "" \\'))
        lines.append(f'"{schema[:cut]}" \\')
        schema = schema[cut + 1 :]
    lines.append(f'"{schema}"{end}')
    return ["echo " + lines[0], *("  " + it for it in lines[1:])]


def wrapped_text(command: str) -> list[str]:
    """Returns a command whose word may be cut behind any comma of a geometry, where a line feed and blanks change nothing."""
    lines = []
    while len(command) > WIDTH - 4:
        cut = command.rindex(",", 0, WIDTH - 4) + 1
        lines.append(command[:cut])
        command = "  " + command[cut:]
    return [*lines, command]


def call(command: list[str], words: list[str]) -> list[str]:
    """Returns a call of the program, on several lines where one is too long."""
    whole = " ".join([*command, *words])
    if len(whole) <= WIDTH - 4:
        return [whole]
    lines = [" ".join(command) + " \\"]
    for at, word in enumerate(words):
        end = " \\" if at + 1 < len(words) else ""
        cut = wrapped_text("  " + word + end)
        lines += cut
    return lines


def paragraph(label: str, text: str) -> str:
    return textwrap.fill(
        f"{label}: {text}", WIDTH, initial_indent="  ", subsequent_indent="    ", break_long_words=False, break_on_hyphens=False
    )


def page_text(code: str, rows: list[Row]) -> str:
    """Returns the page of a code."""
    parts = [f"{code}: {TITLES.get(code) or TITLES[code[0]]}"]
    for it in rows:
        lines = [it.line, paragraph("means", it.means)]
        runs = it.example and it.example[-1].startswith(("sfq", " ", '"'))
        if runs:
            lines += ["  example:", *("    " + line for line in it.example)]
        elif it.example:
            lines.append(paragraph("example", it.example[0]))
        parts.append("\n".join([*lines, paragraph("to do", it.remedy)]))
    parts.append(textwrap.fill(" ".join(NOTES[code[0]]), WIDTH))
    return "\n\n".join(parts) + "\n"


def first_clause(means: str) -> str:
    """Returns what a meaning says up to its first stop, without a place that is an example's."""
    return re.sub(r" at byte \d+$", "", re.split(r"[;:.](?: |$)", means)[0])


def code_list(texts: dict[str, str]) -> str:
    """Returns the list of codes, of the pages."""
    means = {code: re.search(r"^  means: (.*(?:\n    .*)*)", text, re.M) for code, text in texts.items()}
    return "".join(f"{code}: {first_clause(' '.join(found[1].split()))}\n" for code, found in means.items() if found)


def pages(document: Optional[str] = None) -> dict[str, str]:
    """Returns the page of each code, in the order of the codes: W, V, S, L, Q."""
    if document is None:
        with open(DOCUMENT, encoding="utf-8") as file:
            document = file.read()
    rows = rows_of(document)
    words = plain(document)
    for it in {note for notes in NOTES.values() for note in notes}:
        if it not in words:
            raise SystemExit(f"docs/FAULTS.md lacks the sentence: {it}")
    return {code: page_text(code, [it for it in rows if it.code == code]) for code in in_order(it.code for it in rows)}


def in_order(codes: Iterable[str]) -> list[str]:
    """Returns the codes, each once, in their order: W, V, S, L, Q."""
    return sorted(set(codes), key=lambda it: ("WVSLQ".index(it[0]), int(it[1:])))


# Of these the words say nothing to do: another fault, the place or the drawing says it.
WITHOUT_REMEDY = ("W1", "Q2", "L6", "Q8", "V")


def words_of(row: Row) -> str:
    """Returns what a code means and what to do, in one sentence, given its first row."""
    alone = row.code.startswith(WITHOUT_REMEDY)
    return first_clause(row.means) if alone else f"{first_clause(row.means)}: {first_clause(row.remedy)}"


def source_of_words(rows: list[Row]) -> str:
    """Returns the file of the words of each code, in the order W, V, S, L, Q."""
    first = {it.code: it for it in reversed(rows)}
    macros = {"W": "FAULT", "V": "FAULT"}
    lines = [
        f"{macros.get(code[0], 'TABLE_FAULT')}('{code[0]}', {code[1:]}, \"{literal(words_of(first[code]))}\")\n" for code in in_order(first)
    ]
    return (
        "/*\n * What each fault means and what to do, of a geometry by FAULT, of a schema, a table or a query by TABLE_FAULT. C takes the lines by\n"
        " * these macros (faults.c, and files.c of bindings/sqlite), and Python reads them (faults.py). tools/fault_pages.py writes them from\n"
        " * the tables of docs/FAULTS.md.\n */\n" + "".join(lines)
    )


def hint(sentence: str) -> str:
    """Returns what a sentence says to do: what is behind its first colon or question mark up to the next stop, else all of it."""
    return first_clause(re.split(r"[:?] ", sentence, maxsplit=1)[-1])


def general_sentences() -> list[tuple[str, str]]:
    """Returns the sentences of --why of which a code has one, each with its code."""
    text = repository.read(SENTENCES)
    codes: dict[str, str] = {}
    for path in DECLARED:
        declared = repository.read(f"{repository.ROOT}/crates/{path}")
        for name, body in re.findall(r"^pub enum (\w+) \{\n(.*?)^\}", declared, re.M | re.S):
            codes |= {f"{name}::{variant}": code for code, variant in re.findall(r"/// ([A-Z]\d+): [^\n]*\n(?:    ///[^\n]*\n)*(?:    #[^\n]*\n)*    (\w+)", body)}
    constants = dict(re.findall(r'const (\w+): &str =\s+"(.*)";', text))
    found = [(code, constants[name]) for name, code in CONSTANTS.items()]
    for name in FORMS:
        body = text[text.index(f"fn {name}(") :]
        body = body[: body.index("\n}\n")]
        for variants, sentence in re.findall(r'^        ([\w:(, )|\n]+?)(?: if \w+)? =>\s+"(.+)",$', body, re.M):
            found += [(codes[it], sentence) for it in re.findall(r"\w+::\w+", variants) if sentence not in SPECIAL]
    return found


def unlike() -> list[str]:
    """Returns what is wrong with the sentences of --why: what each says to do that no row of its code begins with. One that names something
    and says nothing to do is a beginning, which the code goes on with."""
    with open(DOCUMENT, encoding="utf-8") as file:
        rows = rows_of(file.read())
    found = []
    for code, sentence in general_sentences():
        pattern = re.escape(hint(sentence)).replace(r"\{\}", r"\w+")
        is_whole = hint(sentence) != sentence or "{" not in sentence
        if is_whole and not any(it.code == code and re.fullmatch(pattern, first_clause(it.remedy)) for it in rows):
            found.append(f"{code}: docs/FAULTS.md has no row whose remedy begins as sentences.rt says it: {hint(sentence)}")
    return found


def literal(text: str) -> str:
    """Returns a text as a literal of the source has it."""
    return text.replace("\\", "\\\\").replace('"', '\\"')


def source_of(letter: str, texts: dict[str, str]) -> str:
    """Returns the file of the pages of one letter."""
    parts = [f"//! The pages of {letter}1 to {list(texts)[-1]}. `tools/fault_pages.py` writes them from the tables of docs/FAULTS.md.\n"]
    for code, text in texts.items():
        parts.append(f"/// The page of {code}.\npub(crate) const {code}: &str = \"\\\n{literal(text)}\";\n")
    return "\n".join(parts)


def source_of_list(text: str) -> str:
    """Returns the file of the list of codes."""
    return (
        "//! The list of codes. `tools/fault_pages.py` writes it from the tables of docs/FAULTS.md.\n\n"
        "ghost use Rattle.text_commands.specs.FaultPages.{ListsCodes};\n\n"
        "/// A line for each code: how its page begins to say what it means.\npub(crate) fn code_list() -> &'static str\n"
        f"    ensures {{ ListsCodes result.now }}\n{{\n    \"\\\n{literal(text)}\"\n}}\n"
    )


def sources() -> dict[str, str]:
    """Returns the text of each file of pages, of the file of the list, and of the file of words."""
    texts = pages()
    with open(DOCUMENT, encoding="utf-8") as file:
        rows = rows_of(file.read())
    found = {f"{SOURCE}/code_lists.rt": source_of_list(code_list(texts)), WORDS: source_of_words(rows)}
    for letter, name in FILES.items():
        found[f"{SOURCE}/{name}.rt"] = source_of(letter, {code: text for code, text in texts.items() if code[0] == letter})
    return found


def stale() -> list[str]:
    """Returns the files of pages and words that aren't those of the document."""
    found = []
    for path, text in sources().items():
        if not os.path.isfile(path):
            found.append(path)
            continue
        with open(path, encoding="utf-8") as file:
            if file.read() != text:
                found.append(path)
    return found


def main() -> int:
    if sys.argv[1:] == ["--check"]:
        old = stale()
        for it in old:
            print(f"{os.path.relpath(it, repository.ROOT)} isn't as docs/FAULTS.md says: run python3 tools/fault_pages.py")
        wrong = unlike()
        print("".join(f"{it}\n" for it in wrong), end="")
        return 1 if old or wrong else 0
    os.makedirs(SOURCE, exist_ok=True)
    for path, text in sources().items():
        repository.write_whole(path, text)
    return 0


if __name__ == "__main__":
    repository.print_help(__doc__)
    sys.exit(main())
