#!/usr/bin/env python3
"""Prints each line of tests/required_rows.txt that no test has, and ends with status 1 if there is one.

usage: python3 tools/required_rows.py [LIST]
"""
import glob
import os
import re
import sys
from typing import Iterable

import repository
from repository import read

SCRIPTS = f"{repository.ROOT}/crates/scripts"
# The files that a kind of line names: tests that need code, worked examples that are proved, and system tests.
FILES = {
    "library": [f"crates/{it}/src/*.rt" for it in repository.crates_with_tests()],
    "example": ["crates/*/src/*_examples.rt"],
    "system": ["tests/test_*.py"],
}
LIST = f"{repository.ROOT}/tests/required_rows.txt"
# What `$S` means in a script.
SQUARE = "ST_GeomFromText('POLYGON((0 0,4 0,4 4,0 4,0 0))')"


def written_out(text: str) -> str:
    """Returns a text with the short forms of scripts written out."""
    def meant(form: re.Match[str]) -> str:
        repeated = re.fullmatch(r"(\d+) to (\d+) of (.*)", form[1], re.S)
        if repeated:
            first, last, part = repeated.groups()
            return "".join(part.replace("$", str(it)) for it in range(int(first), int(last) + 1))
        byte = re.fullmatch(r"byte (\d+)", form[1])
        return chr(int(byte[1])) if byte else form[1]

    return re.sub(r"\{([^}]*)\}", meant, text.replace("$S", SQUARE))


class Row:
    """A command over files, and what it has to print. Files are a name, `schema` or `table NAME`, and a text."""

    def __init__(self, command: str, output: str, files: dict[str, str]) -> None:
        self.command, self.output, self.files = command, output, files

    def has_files(self, others: dict[str, str]) -> bool:
        return all(self.files.get(name) == text for name, text in others.items())


class Tests:
    """The rows of the scripts by their commands, and by their kind the files of the other tests, each with its name and text."""

    def __init__(self, rows: Iterable[Row], files: dict[str, list[tuple[str, str]]]) -> None:
        self.rows: dict[str, list[Row]] = {}
        self.files = files
        for it in rows:
            self.rows.setdefault(it.command, []).append(it)

    def has_row(self, command: str, output: str, files: dict[str, str]) -> bool:
        return any(it.output == output and it.has_files(files) for it in self.rows.get(command, []))

    def has_text(self, kind: str, name: str, text: str) -> bool:
        return any(name == it and text in whole for it, whole in self.files.get(kind, []))


def rows_of(script: str) -> list[Row]:
    """Returns the rows of a script, as crates/scripts/src/blocks.rt reads it."""
    rows: list[Row] = []
    files: dict[str, str] = {}
    for lines in script.split("\n\n"):
        head, _, body = (lines.strip("\n") + "\n").replace("\\\n", "").partition("\n")
        if not head or head.startswith("#"):
            continue
        if head == "schema" or head.startswith("table "):
            files = {**files, head: written_out(body)}
        else:
            rows.append(Row(written_out(head), written_out(body), files))
    return rows


def all_tests() -> Tests:
    names = read(f"{SCRIPTS}/args").splitlines()
    rows = [row for it in names for row in rows_of(read(f"{SCRIPTS}/data/{it}"))]
    paths = {kind: [it for pattern in FILES[kind] for it in glob.glob(f"{repository.ROOT}/{pattern}")] for kind in FILES}
    return Tests(rows, {kind: [(os.path.basename(it), read(it)) for it in paths[kind]] for kind in paths})


def text_of(written: str) -> str:
    """Returns a text that a line of the list writes: it ends with a line feed, unless there is a backslash at its end."""
    lines = written.replace("\\n", "\n")
    return written_out(lines[:-1] if lines.endswith("\\") else lines + "\n")


def transposed(matrix: str) -> str:
    return "".join(matrix[it] for it in (0, 3, 6, 1, 4, 7, 2, 5, 8))


def is_text_of_file(line: str, tests: Tests) -> bool:
    kind, _, rest = line.partition(" ")
    name, colon, text = rest.partition(": ")
    return bool(colon and text) and tests.has_text(kind, name, text)


def is_pair(line: str, tests: Tests) -> bool:
    pair, _, matrix = line.removeprefix("pair ").partition(" => ")
    first, _, second = pair.partition(" | ")
    return (tests.has_row(f"relate {first} | {second}", f"{matrix}\n", {})
            and tests.has_row(f"relate {second} | {first}", f"{transposed(matrix)}\n", {}))


def missing(lines: Iterable[str], tests: Tests) -> list[str]:
    """Returns the lines of a list that no test has."""
    found: list[str] = []
    files: dict[str, str] = {}
    for line in lines:
        command, arrow, output = line.partition(" => ")
        if not line or line.startswith("#"):
            continue
        if line.startswith("schema "):
            files = {"schema": text_of(line.removeprefix("schema "))}
        elif line.startswith("table "):
            _, name, text = line.split(" ", 2)
            files = {**files, f"table {name}": text_of(text)}
        elif line.partition(" ")[0] in FILES:
            found += [] if is_text_of_file(line, tests) else [line]
        elif line.startswith("pair "):
            found += [] if is_pair(line, tests) else [line]
        elif not arrow:
            found.append(line)
        else:
            needed = {} if command.startswith(("relate ", "sfq")) else files
            found += [] if tests.has_row(written_out(command), text_of(output), needed) else [line]
    return found


def main(words: list[str]) -> int:
    found = missing(read(words[0] if words else LIST).splitlines(), all_tests())
    for it in found:
        print(it)
    return 1 if found else 0


if __name__ == "__main__":
    repository.print_help(__doc__)
    sys.exit(main(sys.argv[1:]))
