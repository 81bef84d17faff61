#!/usr/bin/env python3
"""The texts that sfq prints whatever files there are: help, the version, the page of each fault and the list of their codes, and what
it says of an unknown command and of missing words, from the files of this repository.

    python3 tools/own_texts.py     writes packaging/help anew, which has the texts of help, by the program

./sfq prints them where ./build hasn't made the program, so that nobody waits for a build to read them. The pages of faults and their list are those in
the program's source. The texts of help were printed by the program, and the usage in them says which words a command needs; where the
program's words were changed since then, none is taken from here.
"""
import hashlib
import os
import re
import sys
from typing import NamedTuple, Optional, Sequence

from similarity import jaro

ROOT = os.path.dirname(os.path.dirname(os.path.realpath(__file__)))
FOLDER = f"{ROOT}/packaging/help"
COMMANDS = ("run", "check", "relate", "why", "pairs", "fault")
# A command is proposed for an unknown one that is more similar to it than this.
SIMILAR = 0.7
# The file of the pages of each letter of a code.
PAGES = {"W": "text_pages", "V": "validity_pages", "S": "schema_pages", "L": "table_pages", "Q": "query_pages"}


class Text(NamedTuple):
    """What a call writes to standard output and to standard error, and its status."""

    out: str
    err: str
    status: int


def read(path: str) -> str:
    with open(path, encoding="utf-8") as file:
        return file.read()


def sum_of_words() -> str:
    """Returns the sum of the sources that have the words of the command line and the texts of its help."""
    folder = f"{ROOT}/crates/command_line/src"
    texts = [f"{it}\n{read(f'{folder}/{it}')}" for it in sorted(os.listdir(folder)) if it.endswith(".rt")]
    return hashlib.sha256("".join(texts).encode()).hexdigest()


def help_of(name: str) -> Optional[str]:
    """Returns the help of sfq or of a command, or None where the sources have other words now."""
    return read(f"{FOLDER}/{name}.txt") if read(f"{FOLDER}/sum.txt").strip() == sum_of_words() else None


def version() -> Optional[str]:
    """Returns the version that the program's source has, or None where it isn't as expected there."""
    found = re.search(r'^pub const VERSION: &str = "([\d.]+)";$', read(f"{ROOT}/crates/command_line/src/command_words.rt"), re.M)
    return f"sfq {found[1]}\n" if found else None


def literal_of(item: str, name: str) -> Optional[str]:
    """Returns the text of a function or a constant of a file of the program's source; None where there is no such item."""
    text = read(f"{ROOT}/crates/text_commands/src/{name}.rt")
    found = re.search(rf'^pub\(crate\) (?:fn|const) {item}\b.*?"\\\n(.*?)^";?$', text, re.M | re.S)
    return re.sub(r'\\(["\\])', r"\1", found[1]) if found else None


def page(code: str) -> Optional[str]:
    """Returns the page of a code, in any case, as the program's source has it; None where there is none."""
    name = PAGES.get(code[:1].upper())
    return literal_of(code.upper(), name) if name and re.fullmatch(r"[a-zA-Z][0-9]+", code) else None


def fault_text(words: Sequence[str]) -> Optional[Text]:
    """Returns what is written of the last code that words have, or the list of codes where there is no word."""
    if not words:
        found = literal_of("code_list", "code_lists")
    else:
        found = next(filter(None, (page(part) for word in reversed(words) for part in reversed(word.split(" ")))), None)
        line = None if found else unknown_code()
        if line:
            return Text("", line, 2)
    return Text(found, "", 0) if found else None


def unknown_code() -> Optional[str]:
    """Returns the line of an unknown code, as the program's source has it."""
    found = re.search(r'^    "(unknown code: [^"\\]*)";$', read(f"{ROOT}/crates/failures/src/failure.rt"), re.M)
    return f"sfq: {found[1]}\n" if found else None


def usage(name: str) -> Optional[str]:
    """Returns the line of usage of sfq or of a command, or None where the sources have other words now."""
    found = re.search(r"^Usage: .*$", help_of(name) or "", re.M)
    return found[0] if found else None


def mistake(said: str, usage_line: str) -> Text:
    """Returns what is written of a mistake in the words."""
    return Text("", f"error: {said}\n\n{usage_line}\n\nFor more information, try '--help'.\n", 2)


def unknown_command(word: str) -> Optional[Text]:
    """Returns what is written of an unknown command, with the commands that are similar to it, the most similar one last."""
    similar = sorted((it for it in (*COMMANDS, "help") if jaro(word, it) > SIMILAR), key=lambda it: jaro(word, it))
    tip = "a similar subcommand exists" if len(similar) == 1 else "some similar subcommands exist"
    names = ", ".join(f"'{it}'" for it in similar)
    line = usage("sfq")
    return mistake(f"unrecognized subcommand '{word}'" + (f"\n\n  tip: {tip}: {names}" if similar else ""), line) if line else None


def missing_words(name: str, rest: Sequence[str]) -> Optional[Text]:
    """Returns what is written where words of a command are missing; None where none is, or where the words have another mistake."""
    line = usage(name)
    flags = [it for it in rest if it.startswith("-") and it != "-"]
    if not line or flags not in ([], ["--why"]) or flags and "[OPTIONS]" not in line:
        return None
    missing = re.findall(r" (<\w+>)", line)[len(rest) - len(flags) :]
    said = "the following required arguments were not provided:" + "".join(f"\n  {it}" for it in missing)
    return mistake(said, line.replace(" [OPTIONS]", "".join(f" {it}" for it in flags))) if missing else None


def text_of(words: Sequence[str]) -> Optional[Text]:
    """Returns what a call writes that asks for such a text, or None where it asks for anything else or its text isn't known."""
    if any(re.search("[\ud800-\udfff]", it) for it in words):
        return None
    try:
        return found_text(words)
    except OSError:
        return None


def found_text(words: Sequence[str]) -> Optional[Text]:
    """Returns what `text_of` does, or raises OSError where a source isn't there."""
    asked = list(words)
    flags = ["--help"], ["-h"]
    if asked in (["--version"], ["-V"]):
        found = version()
    elif asked in (*flags, ["help"], []):
        found = help_of("sfq")
        if not asked and found:
            return Text("", found, 2)
    elif len(asked) == 2 and (asked[0] in COMMANDS and asked[1:] in flags or asked[0] == "help" and asked[1] in COMMANDS):
        found = help_of(asked[1] if asked[0] == "help" else asked[0])
    elif asked[0] == "fault" and not any(it.startswith("-") for it in asked[1:]):
        return fault_text(asked[1:])
    elif asked[0] in COMMANDS:
        return missing_words(asked[0], asked[1:])
    elif asked[0] != "help" and (asked[0] == "-" or not asked[0].startswith("-")):
        return unknown_command(asked[0])
    else:
        found = None
    return Text(found, "", 0) if found else None


def main() -> int:
    """Writes the texts of help, by the program."""
    import answers
    import repository

    given = answers.ask([["--help"], *([it, "--help"] for it in COMMANDS)])
    os.makedirs(FOLDER, exist_ok=True)
    for name, it in zip(("sfq", *COMMANDS), given):
        if it.status or it.err:
            raise SystemExit(f"sfq {name} --help ended with status {it.status}: {it.err.decode()}")
        repository.write_whole(f"{FOLDER}/{name}.txt", it.out.decode())
    repository.write_whole(f"{FOLDER}/sum.txt", f"{sum_of_words()}\n")
    return 0


if __name__ == "__main__":
    import repository

    repository.print_help(__doc__)
    sys.exit(main())
