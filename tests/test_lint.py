"""What ./lint refuses, each shown once in a small repository."""
import os
import pathlib
import shutil
import subprocess
import sys
import tempfile
import unittest

import support

ROOT = pathlib.Path(__file__).resolve().parent.parent

CLEAN = {
    "HANDLES": "Handles allowed: none.\n",
    "crates.txt": "# Each crate.\none:\n",
    "README.md": "# One\n\nIt prints [a page](docs/PAGE.md#the-part).\n",
    "docs/PAGE.md": "# Page\n\n## The part\n\nText.\n",
    "crates/one/src/lib.rt": (
        "//! One.\n#![tactic(auto)]\n\n/// The number one.\npub fn one() -> u64\n{\n    1\n}\n"
    ),
    "crates/one/specs/Ones.antt": "-- What one is.\n",
    "crates/one/must-fail/two.edit": "file: src/lib.rt\nold:     1\nnew:     2\n",
}

# What ./lint counts with.
TOOLS = ["antt", "common_facts", "contracts", "counts", "edits", "paths", "proved_page", "recorded", "repository", "spread", "twins", "unused", "unused_lemmas"]


def tool(name):
    """The text of a tool, without the line for the shell: a file that is written here can't be executed."""
    return (ROOT / f"tools/{name}.py").read_text().removeprefix("#!/usr/bin/env python3\n")


# The only function of the clean repository is one that nothing uses.
STAYS = {"tools/unused.txt": "It is an example.\ncrates/one/src/lib.rt one\n"}
# A stand-in for `rt`, whose layout is that no line ends with a space.
LAYS_OUT = f"""#!{sys.executable}
import pathlib
for path in [it for kind in ("rt", "antt") for it in pathlib.Path().glob("*/**/*." + kind)]:
    path.write_text("".join(line.rstrip() + "\\n" for line in path.read_text().splitlines()))
"""
# A stand-in for the script that writes the definitions: the page is the name of the file that they are in.
MAKES = """import pathlib, sys
sys.exit(pathlib.Path("DEFINITIONS.md").read_text() != pathlib.Path("../crates/one/specs/Ones.antt").name + "\\n")
"""


class Refused(unittest.TestCase):
    """Each change of a clean repository is one finding, and the status is 1."""

    def found(self, path=None, text=None, more={}):
        """Runs ./lint in the clean repository with more files and one file changed, and returns its status and lines."""
        with tempfile.TemporaryDirectory(prefix="sfq-lint-") as name:
            room = pathlib.Path(name)
            support.write_all(name, {**CLEAN, **more, **({path: text} if path else {})})
            shutil.copy(ROOT / "lint", room / "lint")
            (room / "bin").mkdir(exist_ok=True)
            for program in (room / "bin").iterdir():
                program.chmod(0o755)
            if shutil.which("pyflakes3"):
                (room / "bin/pyflakes3").symlink_to(shutil.which("pyflakes3"))
            environment = {**os.environ, "PATH": str(room / "bin")}
            ran = subprocess.run(
                [sys.executable, room / "lint"], env=environment, capture_output=True, text=True
            )
        return ran.returncode, ran.stdout.splitlines()

    def refused(self, path, text, line, word, more={}):
        status, lines = self.found(path, text, more)
        self.assertEqual((status, len(lines)), (1, 1), lines)
        self.assertTrue(lines[0].startswith(f"{path}:{line}: "), lines)
        self.assertIn(word, lines[0])

    def test_a_clean_repository_is_not(self):
        self.assertEqual(self.found(), (0, []))

    def test_a_word_of_the_list(self):
        self.refused("docs/PAGE.md", "# Page\n\n## The part\n\nIt stands on that.\n", 5, "stands")
        code = CLEAN["crates/one/src/lib.rt"].replace("The number one.", "It tells one.")
        self.refused("crates/one/src/lib.rt", code, 4, "tells")
        self.refused("crates/one/specs/Ones.antt", "-- Want of memory.\n", 1, "memory")
        self.refused("crates/one/specs/Ones.antt", "-- It fails for want\n-- of memory.\n", 2, "memory")

    def test_a_word_in_code_is_not(self):
        page = "# Page\n\n## The part\n\nThe name `stands_at`.\n\n```text\nit stands\n```\n"
        self.assertEqual(self.found("docs/PAGE.md", page), (0, []))

    def test_a_dead_link(self):
        self.refused("README.md", "# One\n\nSee [it](docs/NONE.md).\n", 3, "NONE.md")
        self.refused("README.md", "# One\n\nSee [it](docs/PAGE.md#no-part).\n", 3, "no-part")

    def test_a_long_line(self):
        self.refused("README.md", "# One\n\n" + "word " * 21 + "\n", 3, "columns")

    def test_a_public_item_without_docstring(self):
        code = CLEAN["crates/one/src/lib.rt"].replace("/// The number one.\n", "")
        self.refused("crates/one/src/lib.rt", code, 4, "one is public")

    def test_a_private_item_with_another_comment(self):
        code = CLEAN["crates/one/src/lib.rt"] + "\n// The number two.\nfn two() -> u64\n{\n    2\n}\n"
        self.refused("crates/one/src/lib.rt", code, 10, "///")

    def test_another_form_of_a_clause(self):
        for clause in [". (SQL, LIMIT.)", " (OGC 06-103r4, 6.1)."]:
            code = CLEAN["crates/one/src/lib.rt"].replace("one.\npub", f"one{clause}\npub")
            self.refused("crates/one/src/lib.rt", code, 4, "clause of a standard")

    def test_an_edit_that_does_not_apply(self):
        edit = "file: src/lib.rt\nold: 3\nnew: 4\n"
        self.refused("crates/one/must-fail/two.edit", edit, 2, "0 times")
        self.refused("crates/one/edits/three.edit", edit, 2, "0 times")

    def test_an_edit_that_the_gate_cannot_try(self):
        tools = {**{f"tools/{it}.py": tool(it) for it in TOOLS}, **STAYS}
        marked = "tried by the gate\nfile: src/lib.rt\n"
        status, lines = self.found("crates/one/edits/three.edit", marked + "old:     1\nnew:     2\n", tools)
        self.assertEqual((status, lines[0].split()[:2]), (0, ["crates", "1"]), lines)
        status, lines = self.found("crates/one/edits/three.edit", marked + "old: -> u64\nnew: -> u32\n", tools)
        self.assertEqual((status, lines[0].rpartition(": ")[2]), (1, "it changes more than functions"), lines)

    def test_a_script_that_cannot_be_called(self):
        self.refused("tools/one.py", "#!/usr/bin/env python3\n", 1, "chmod +x")
        self.assertEqual(self.found("tools/one.py", "ONE = 1\n"), (0, []))

    def test_a_reader_of_sql(self):
        for token in ("[A-Za-z_][A-Za-z0-9_]*", r"--[^\n]*", "'(?:[^']|'')*'"):
            self.refused("bindings/one.py", f'ONE = r"{token}"\n', 1, "ask sfq_text_parts")
            self.assertEqual(self.found("tests/one.py", f'ONE = r"{token}"\n'), (0, []))

    def test_a_reader_of_tokens_and_of_well_known_text(self):
        for code, instead in (
            ("parts.parts(query)", "ask sfq_query"), (r"[ \t]+|[(),]", "call sfq_read"), (r"[^()]*\d", "call sfq_read"), ("text.partition('(')[2]", "call sfq_read"),
            ("text.replaceAll('(', '[')", "call sfq_read"), ("0123456789 abcxyz0123456789_", "ask sfq_text_parts"),
        ):
            self.refused("bindings/one.py", f'ONE = r"{code}"\n', 1, instead)
            self.assertEqual(self.found("tests/one.py", f'ONE = r"{code}"\n'), (0, []))
        # The name of a type is no reading of a text.
        self.assertEqual(self.found("bindings/one.py", "ONE = 'POINT(1 2)'.partition('(')[0]\n"), (0, []))

    def test_code_that_rounds_or_takes_a_binary_form_apart(self):
        for code, instead in (
            ("math.floor(x / step + 0.5)", "sfq_round"), ("math.floor(x + Fraction(1, 2))", "sfq_round"), ("Math.round(x)", "sfq_round"),
            ("struct.unpack_from(form, it, 1)", "sfq_take_apart"), ("it.frombytes(part)", "sfq_take_apart"), ("view.getFloat64(5)", "sfq_take_apart"),
        ):
            for path in ("bindings/one.py", "tools/one.js"):
                self.refused(path, f'ONE = "{code}"\n', 1, f"call {instead}")
            self.assertEqual(self.found("tests/one.py", f'ONE = "{code}"\n'), (0, []))

    @support.needs("pyflakes3", "pyflakes3")
    def test_an_import_that_nothing_uses_and_a_name_that_is_not_there(self):
        self.refused("tools/one.py", "import os\nimport support\n", 1, "'os' imported but unused")
        self.refused("tools/one.py", "import os\n\nprint(os.sep, nothing)\n", 3, "undefined name 'nothing'")

    def test_a_crate_that_is_not_listed(self):
        status, lines = self.found("crates.txt", "# Each crate.\n")
        self.assertEqual((status, lines), (1, ["crates/one:1: a crate that isn't in crates.txt"]))

    def test_a_crate_without_a_paragraph(self):
        table = "# Architecture\n\n| crate | what it does |\n|---|---|\n"
        one = table + "| `one` | one |\n\n| type | keeps |\n|---|---|\n| `two` | two |\n"
        self.assertEqual(self.found("docs/ARCHITECTURE.md", one), (0, []))
        self.refused("docs/ARCHITECTURE.md", table, 1, "no paragraph for the crate one")
        self.refused("docs/ARCHITECTURE.md", one.replace("| one |", "| one |\n| `two` | two |"), 6, "two")
        room = "# Architecture\n\n**`one`** is one. *Invariant:* it isn't `two`.\n"
        self.assertEqual(self.found("docs/ARCHITECTURE.md", room), (0, []))
        self.refused("docs/ARCHITECTURE.md", room + "\n**`two`** is two.\n", 5, "two")

    def test_another_layout(self):
        more = {"bin/rt": LAYS_OUT}
        self.assertEqual(self.found(more=more), (0, []))
        code = CLEAN["crates/one/src/lib.rt"].replace("    1\n", "    1 \n")
        self.refused("crates/one/src/lib.rt", code, 1, "rt fmt", more)
        for part in ("specs", "proofs"):
            file = f"crates/one/{part}/Ones.antt"
            self.refused(file, "-- What one is. \n", 1, "rt fmt", more)

    def test_a_document_past_its_size(self):
        page = CLEAN["README.md"]
        self.assertEqual(self.found("README.md", page + "\n" * 147), (0, []))
        self.refused("README.md", page + "\n" * 148, 1, "151 lines of at most 150")
        lines = ("x" * 99 + "\n") * 101 + "x" * (10240 - len(page) - 10101) + "\n"
        self.assertEqual(self.found("README.md", page + lines), (0, []))
        self.refused("README.md", page + "x" + lines, 1, "10241 bytes of at most 10240")

    def test_a_part_of_a_document_past_its_size(self):
        table = "# Architecture\n\n| crate | what it does |\n|---|---|\n| `one` | one |\n"
        lines = ("x" * 99 + "\n") * 5 + "x" * 100 + "\n"
        listed, row = f"- {lines[2:]}", f"| `one` | {'x' * 588} |\n"
        for text, line in ((f"\n{lines}", 7), (f"\n- one\n{listed}", 8), (f"\n## Head\n{lines}", 8), (row, 6)):
            self.assertEqual(self.found("docs/ARCHITECTURE.md", table + text), (0, []))
            self.refused("docs/ARCHITECTURE.md", table + text.replace("x", "xx", 1), line, "601 bytes of at most 600")
        # The whole may be larger; code isn't counted, nor is a paragraph of just that size.
        whole = table + f"\n{lines}\n{lines}\n```text\n{lines}{lines}```\n"
        self.assertEqual(self.found("docs/ARCHITECTURE.md", whole), (0, []))

    def test_definitions_that_are_stale(self):
        more = {"docs/definitions.py": MAKES}
        self.assertEqual(self.found("docs/DEFINITIONS.md", "Ones.antt\n", more), (0, []))
        self.refused("docs/DEFINITIONS.md", "Twos.antt\n", 1, "docs/definitions.py", more)

    def test_counts_at_the_end(self):
        tools = {**{f"tools/{it}.py": tool(it) for it in TOOLS}, **STAYS}
        status, lines = self.found(more=tools)
        self.assertEqual((status, lines[0].split()[:2]), (0, ["crates", "1"]), lines)
        walk = {"tools/walks.txt": "a way, at most 1 crates:\none::lib::one\n"}
        status, lines = self.found(more={**tools, **walk})
        self.assertEqual((status, lines[-1].split()[-4:]), (0, ["1", "at", "most", "1"]), lines)
        walk = {"tools/walks.txt": "a way, at most 1 crates:\none::lib::two\n"}
        status, lines = self.found(more={**tools, **walk})
        self.assertEqual((status, lines[0]), (1, "tools/walks.txt:2: no function one::lib::two"))

    def test_a_function_that_nothing_uses(self):
        tools = {f"tools/{it}.py": tool(it) for it in TOOLS}
        status, lines = self.found(more=tools)
        self.assertEqual((status, lines[0].partition(";")[0]), (1, "crates/one/src/lib.rt:5: one: nothing uses it"))

    def test_more_than_is_recorded(self):
        tools = {**{f"tools/{it}.py": tool(it) for it in TOOLS}, **STAYS}
        more = {**tools, "tools/long_lines.txt": "# Of long and same.\none 1\n", "tools/common_facts.txt": "# Facts.\n"}
        long = "long : One\nlong = " + "x" * 124 + "\n"
        status, lines = self.found("crates/one/proofs/Ones.antt", long, more)
        self.assertEqual((status, lines[0].split()[:2]), (0, ["crates", "1"]), lines)
        status, lines = self.found("crates/one/proofs/Ones.antt", long + long, more)
        self.assertEqual((status, lines[0].partition(" lines")[0]), (1, "tools/long_lines.txt:2: one has 2"))
        fact = "use Rattle.std.specs.Prelude.{◌≡◌, ℕ}\n\nsame : (n : ℕ) → n ≡ n\nsame n = refl\n"
        status, lines = self.found("crates/one/proofs/Ones.antt", fact, more)
        self.assertEqual((status, lines[0].partition(" facts")[0]), (1, "tools/common_facts.txt:1: one has 1"))

    def test_handles(self):
        self.refused("HANDLES", "Handles allowed: Net.\n", 1, "has to be")

    def test_a_root_file_without_tactic(self):
        code = CLEAN["crates/one/src/lib.rt"].replace("#![tactic(auto)]\n", "")
        self.refused("crates/one/src/lib.rt", code, 1, "tactic")


if __name__ == "__main__":
    unittest.main()
