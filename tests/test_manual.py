"""The manual pages and the completions: they are well formed and speak of every command, option, status and fault."""
import os
import re
import shutil
import subprocess
import sys
import tempfile
import unittest

from support import ROOT, asked, needs, python_command, read

import fault_pages
import repository
import scale_programs

PAGE = f"{ROOT}/packaging/man/sfq.1"
COMPLETIONS = ("sfq.bash", "_sfq", "sfq.fish")
GEOMETRIES = ["POINT(", "MULTIPOINT(", "LINESTRING(", "MULTILINESTRING(", "POLYGON(", "MULTIPOLYGON("]
# The other commands, and the words that print their options.
OTHERS = {
    "sfq-tiles": [scale_programs.TILES, "--help"],
    "sfq-scale": [*python_command(sys.executable, "sfq-scale"), "run", "--help"],
    "sfq-import": [*python_command(sys.executable, "sfq-import"), "--help"],
    "sfq-export": [*python_command(sys.executable, "sfq-export"), "--help"],
    "sfq-schema": [*python_command(sys.executable, "sfq-schema"), "--help"],
    "sfq-shell": [*python_command(sys.executable, "sfq-shell"), "--help"],
    "sfq-ask": [*python_command(sys.executable, "sfq-ask"), "--help"],
    "sfq-audit": [*python_command(sys.executable, "sfq-audit"), "run", "--help"],
}


def commands_in(text):
    """Returns the commands that a help text lists."""
    part = re.search(r"^Commands:\n((?: +.*\n)+)", text, re.M)
    return re.findall(r"^  (\w+)", part[1], re.M) if part else []


def options_in(text):
    """Returns the long options that a help text lists, with the short ones; Python's lists an option's value behind each."""
    return re.findall(r"^  (?:(-\w)(?: [^ ,]+)?, )?(--[\w-]+)", text, re.M)


class ManualPage(unittest.TestCase):
    @needs("groff", "groff")
    def test_no_warning(self):
        for name in ("sfq", *OTHERS):
            ran = subprocess.run(["groff", "-t", "-man", "-ww", "-Tutf8", f"{ROOT}/packaging/man/{name}.1"], capture_output=True, text=True)
            self.assertEqual((ran.stderr, ran.returncode), ("", 0))
            self.assertIn("EXIT STATUS", re.sub(r".\x08|\x1b\[[\d;]*m", "", ran.stdout))

    def test_each_status_and_line_without_a_code_is_in_it(self):
        page, faults = read(PAGE), read(f"{ROOT}/docs/FAULTS.md")
        for it in re.findall(r"^\| (\d) \|", faults, re.M):
            self.assertRegex(page, rf"(?m)^\.B {it}$", f"status {it}")
        for it in re.findall(r"`sfq: (?:t )?((?:schema )?unreadable|write failed|out of memory)`", faults):
            self.assertIn(it, page)


class Help(unittest.TestCase):
    """What --help lists is in the manual page and in each completion, and nothing else is."""

    ASKS_PROGRAM = True

    def test_commands_and_options(self):
        _, _, helps = asked()
        first = helps["--help",]
        commands, options = commands_in(first.out.decode()), options_in(first.out.decode())
        self.assertIn("run", commands)
        self.assertIn(("-h", "--help"), options)
        page = read(PAGE).replace("\\-", "-")
        for it in commands:
            self.assertRegex(page, rf"(?m)^\.B {it}\b", f"command {it}")
        for pair in options:
            for it in filter(None, pair):
                self.assertRegex(page, rf"(?<![\w-]){it}\b", it)
        for name in COMPLETIONS:
            text = read(f"{ROOT}/packaging/completions/{name}")
            for it in commands:
                self.assertRegex(text, rf"\b{it}\b", f"{name}: {it}")
            for short, long in options:
                self.assertRegex(text, rf"{long}\b|-l {long[2:]}\b", f"{name}: {long}")
                self.assertRegex(text, rf"(?<![\w-]){short}\b|-s {short[1:]}\b", f"{name}: {short}")
        self.assertEqual(first.status, 0)
        # Nothing that sfq doesn't have.
        words = re.search(r"compgen -W '(run [^']*)'", read(f"{ROOT}/packaging/completions/sfq.bash"))[1].split()
        self.assertEqual(sorted(words), sorted([*commands, *(it for pair in options for it in pair if it)]))


    def test_texts_of_help(self):
        _, _, helps = asked()
        whole = helps["--help",].out.decode()
        self.assertEqual(helps[()].status, 2)
        self.assertEqual((helps[()].out, helps[()].err.decode()), (b"", whole))
        asking = ("run", "--help"), ("check", "-h"), ("help", "relate"), ("relate", "--help"), ("why", "--help"), ("help", "pairs")
        for words in asking:
            name = next(it for it in words if it.isalpha() and it != "help")
            text, status = helps[words].out.decode(), helps[words].status
            self.assertEqual(status, 0)
            self.assertRegex(text, rf"(?m)^Usage: sfq {name} ")
            self.assertRegex(text, rf"(?m)^  sfq {name} ")
            self.assertIn("Statuses: 0 done", text)
            # Each of these takes a file, or a word that can name one.
            self.assertIn("6 a file or the output", text)
            self.assertIn("man sfq", text)
        for it in ("Example", "Statuses: 0 done, 2 the command line", "man sfq"):
            self.assertIn(it, whole)
        self.assertEqual(helps["--version",].out.decode(), f"sfq {repository.version()}\n")
        mistyped = helps["rum",]
        self.assertEqual(mistyped.status, 2)
        self.assertIn("'run'", mistyped.err.decode())

    def test_a_word_too_few(self):
        _, _, helps = asked()
        self.assertEqual((helps["relate", "POINT(1 1)"].out, helps["relate", "POINT(1 1)"].status), (b"", 2))
        self.assertNotEqual(helps["relate", "POINT(1 1)"].err, b"")


class OtherCommands(unittest.TestCase):
    """The same of the commands beside sfq."""

    ASKS_PROGRAM = True

    def options(self, name):
        """Returns the options of a command by its help, with the short ones; None where the command isn't made."""
        if name == "sfq-tiles" and not scale_programs.has_tiles():
            return None
        ran = subprocess.run(OTHERS[name], capture_output=True, text=True)
        self.assertEqual((ran.stderr, ran.returncode), ("", 0))
        # clap writes a long option further in where it has no short one.
        found = {it for pair in options_in(re.sub(r"(?m)^ {3,6}(?=--)", "  ", ran.stdout)) for it in pair if it}
        self.assertIn("--help", found)
        return found

    def test_options(self):
        for name in OTHERS:
            options = self.options(name)
            if options is None:
                self.skipTest("needs ./build --tiles")
            page = re.sub(r"\\f[A-Z]", "", read(f"{ROOT}/packaging/man/{name}.1").replace("\\-", "-"))
            texts = {it: read(f"{ROOT}/packaging/completions/{it}") for it in completions(name)}
            for option in options:
                self.assertRegex(page, rf"(?<![\w-]){option}\b", f"{name}: {option}")
                for file, text in texts.items():
                    other = rf"-l {option[2:]}\b" if option.startswith("--") else rf"-s {option[1:]}\b"
                    self.assertRegex(text, rf"(?<![\w-]){option}\b|{other}", f"{file}: {option}")
            # Nothing that the command doesn't have.
            offered = re.findall(r"compgen -W '([^']*--help[^']*)'", texts[f"{name}.bash"])[-1].split()
            self.assertEqual(set(offered) - {"--version"}, options - {"--version"}, name)

    def test_options_of_sfq_audit_write(self):
        """It has some that `run` doesn't have, and no others than the completions of it offer."""
        text = subprocess.run([*python_command(sys.executable, "sfq-audit"), "write", "--help"], capture_output=True, text=True, check=True).stdout
        options = {it for pair in options_in(text) for it in pair if it}
        page = read(f"{ROOT}/packaging/man/sfq-audit.1").replace("\\-", "-")
        for option in options:
            self.assertRegex(page, rf"(?<![\w-]){option}\b", option)
            for name in completions("sfq-audit"):
                self.assertRegex(read(f"{ROOT}/packaging/completions/{name}"), rf"(?<![\w-]){option}\b|-[ls] {option.lstrip('-')}\b", f"{name}: {option}")
        offered = re.findall(r"compgen -W '([^']*--help[^']*)'", read(f"{ROOT}/packaging/completions/sfq-audit.bash"))
        self.assertIn(options, [set(it.split()) for it in offered])

    def test_each_says_its_version(self):
        for name, words in OTHERS.items():
            if name != "sfq-tiles" or scale_programs.has_tiles():
                command = [it for it in words if it not in ("run", "--help")]
                ran = subprocess.run([*command, "--version"], capture_output=True, text=True)
                self.assertEqual((ran.stdout, ran.stderr), (f"{name} {repository.version()}\n", ""))


def completions(name):
    """Returns the files of a command's completions."""
    return [f"{name}.bash", f"_{name}", f"{name}.fish"]


def codes():
    """Returns the codes that `sfq fault` knows."""
    return sorted(fault_pages.pages())


class Completions(unittest.TestCase):
    def complete(self, *words, folder=ROOT):
        """Returns what bash offers for the last of these words."""
        script = (
            f"compopt() {{ :; }}; source '{ROOT}/packaging/completions/{words[0]}.bash'; COMP_WORDS=(\"$@\"); COMP_CWORD=$(($# - 1)); "
            f'_{words[0].replace("-", "_")}; printf "%s\\n" "${{COMPREPLY[@]}}"'
        )
        ran = subprocess.run(["bash", "-c", script, "bash", *words], cwd=folder, capture_output=True, text=True)
        self.assertEqual((ran.stderr, ran.returncode), ("", 0))
        return ran.stdout.split()

    @needs("bash", "bash")
    def test_bash(self):
        self.assertEqual(self.complete("sfq", "r"), ["run", "relate"])
        self.assertEqual(self.complete("sfq", "help", "c"), ["check"])
        self.assertEqual(self.complete("sfq", "run", "-"), ["-h", "--help", "--why"])
        self.assertIn("POLYGON(", self.complete("sfq", "relate", "P"))
        self.assertIn("POLYGON(", self.complete("sfq", "why", "POINT(1 1)", "P"))
        self.assertIn("POLYGON(", self.complete("sfq", "why", "--why", "POINT(1 1)", "P"))
        self.assertEqual(self.complete("sfq", "run", "--why", "s", "d", "S"), ["SELECT"])
        self.assertEqual(self.complete("sfq", "fault", "--w"), [])
        self.assertEqual(sorted(self.complete("sfq", "fault", "")), sorted(codes()))
        self.assertEqual(self.complete("sfq", "fault", "L1"), ["L1", "L10", "L11"])
        with tempfile.TemporaryDirectory() as room:
            os.mkdir(f"{room}/tables")
            for it in ("schema.sql", "t.csv"):
                open(f"{room}/{it}", "w", encoding="utf-8").close()
            self.assertEqual(sorted(self.complete("sfq", "run", "", folder=room)), ["schema.sql", "tables"])
            self.assertEqual(self.complete("sfq", "check", "schema.sql", "", folder=room), ["tables"])
            self.assertEqual(sorted(self.complete("sfq-tiles", "--rows", "9", "", folder=room)), ["schema.sql", "tables"])
            self.assertEqual(self.complete("sfq-tiles", "schema.sql", "--part", "a=t", "t", folder=room), ["tables"])
            self.assertEqual(sorted(self.complete("sfq-scale", "run", "--send", "", folder=room)), ["schema.sql", "tables"])
            self.assertEqual(self.complete("sfq-scale", "run", "--rows", "9", "schema.sql", "t", folder=room), ["tables"])
            self.assertEqual(self.complete("sfq-import", "--out", "", folder=room), ["tables"])
            self.assertEqual(self.complete("sfq-export", "t.", folder=room), ["t.csv"])
            self.assertEqual(self.complete("sfq-schema", "", folder=room), ["tables"])
            self.assertEqual(sorted(self.complete("sfq-shell", "--mode", "csv", "", folder=room)), ["schema.sql", "tables"])
            self.assertEqual(self.complete("sfq-shell", "--all", "schema.sql", "-c", ".tables", "t", folder=room), ["tables"])
        self.assertEqual(self.complete("sfq-shell", "--mode", "g"), ["geojson"])
        self.assertEqual(self.complete("sfq-ask", "--out", "g"), ["geojson", "gpkg"])
        self.assertEqual(self.complete("sfq-ask", "a.shp", "SEL"), ["SELECT"])
        self.assertEqual(self.complete("sfq-scale", "r"), ["run"])
        self.assertEqual(self.complete("sfq-audit", "run", "--engine", "sh"), ["shapely"])
        self.assertEqual(self.complete("sfq-audit", "run", "--family", "s"), ["slivers"])
        self.assertEqual(self.complete("sfq-audit", "write", "--format", "j"), ["jts-xml"])
        self.assertEqual(self.complete("sfq-audit", "run", "--format", "j"), ["json"])
        self.assertEqual(self.complete("sfq-scale", "run", "s", "d", "S"), ["SELECT"])
        self.assertEqual(self.complete("sfq-import", "--invalid", "m"), ["mend"])
        self.assertEqual(self.complete("sfq-tiles", "--part", ""), [])

    def by_zsh(self, line, wanted):
        """Returns what zsh offers at the end of a line, typed into one that has a terminal.

        The line is typed anew each half second, behind ^U, which takes the one before away, until all that is wanted is there: on a busy
        machine the line editor begins late, and what is asked for before that is never shown.
        """
        script = (
            "zmodload zsh/zpty; zpty z zsh -f -i; w() { zpty -w z \"$1\"; }; "
            f"w \"PS1=; stty -echo; fpath=('{ROOT}/packaging/completions' \\$fpath); autoload -Uz compinit; compinit -u -D\"; "
            "w 'zstyle \":completion:*\" list-prompt \"\"; LISTMAX=1000; setopt no_beep; echo BEGUN'; "
            "while zpty -r z line && [[ $line != *BEGUN* ]]; do :; done; "
            f"text=; tries=0; while (( tries < 240 )); do zpty -w -n z $'\\C-u{line}\\C-d'; sleep 0.5; "
            "while zpty -rt z more; do text+=$more; done; (( tries += 1 )); "
            'missing=0; for it in "$@"; do [[ $text == *"$it"* ]] || missing=1; done; (( missing )) || break; done; print -r -- "$text"; zpty -d z'
        )
        ran = subprocess.run([shutil.which("zsh"), "-f", "-c", script, "zsh", *wanted], capture_output=True, text=True, timeout=300)
        return re.sub(r"\x1b\[[\d;?]*[A-Za-z]", "", ran.stdout).split()

    @needs("zsh", "zsh")
    def test_zsh(self):
        for name in ("sfq", *OTHERS):
            ran = subprocess.run(["zsh", "-n", f"{ROOT}/packaging/completions/_{name}"], capture_output=True, text=True)
            self.assertEqual((ran.stderr, ran.returncode), ("", 0))
            self.assertEqual(read(f"{ROOT}/packaging/completions/_{name}").splitlines()[0], f"#compdef {name}")
        for line, wanted in (("sfq fault ", codes()), ("sfq relate ", [it.replace("(", "\\(") for it in GEOMETRIES]), ("sfq r", ["relate", "run"])):
            self.assertLessEqual(set(wanted), set(self.by_zsh(line, wanted)), line)

    @needs("fish", "fish")
    def test_fish(self):
        for line, wanted in (
            ("sfq r", ["relate", "run"]), ("sfq relate ", GEOMETRIES), ("sfq why P", ["POINT(", "POLYGON("]), ("sfq fault ", codes()),
            ("sfq fault W", ["W1", "W2", "W3", "W4"]), ("sfq pairs --w", ["--why"]), ("sfq help wh", ["why"]), ("sfq-tiles --r", ["--rows"]), ("sfq-scale ru", ["run"]), ("sfq-scale run --se", ["--send"]),
            ("sfq-import --invalid ", ["snap", "mend", "leave-out", "stop"]), ("sfq-export --w", ["--wgs84"]), ("sfq-schema --v", ["--version"]), ("sfq-shell --mode j", ["json"]), ("sfq-ask --out s", ["svg"]),
            ("sfq-audit run --format h", ["html"]), ("sfq-audit write --format j", ["jts-xml"]), ("sfq-audit w", ["write"]),
        ):
            script = f"source '{ROOT}/packaging/completions/{line.partition(' ')[0]}.fish'; complete -C '{line}'"
            ran = subprocess.run([shutil.which("fish"), "--no-config", "-c", script], capture_output=True, text=True)
            self.assertEqual((ran.stderr, ran.returncode), ("", 0), line)
            self.assertEqual(sorted(it.split("\t")[0] for it in ran.stdout.splitlines()), sorted(wanted))
