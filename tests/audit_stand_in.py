#!/usr/bin/env python3
"""A stand-in for the program sfq in tests of sfq-audit: `pairs FILE` and `why ..` by the exact model, slowly."""
import csv
import sys

import exact_cells
import exact_places


def read(path):
    with open(0 if path == "-" else path, encoding="utf-8") as file:
        return file.read()


def fault(text):
    """Returns the fault of a geometry, such as `V3 0`, nothing of a valid one."""
    line = "valid" if text.endswith("EMPTY") else exact_places.line(text).strip()
    return "" if line == "valid" else line.partition(":")[0]


def matrix(first, second):
    """Returns the line of `sfq pairs` for a pair."""
    for which, text in (("first", first), ("second", second)):
        found = fault(text)
        if found:
            return f"{which} {found}"
    return "".join(it.split()[2] for it in exact_cells.lines(first, second).splitlines())


def main(words):
    if words[0] == "pairs":
        with open(0 if words[1] == "-" else words[1], encoding="utf-8", newline="") as file:
            lines = [matrix(*it) for it in csv.reader(file)]
        sys.stdout.write("".join(f"{it}\n" for it in lines))
        return 5 if any(it[0] in "fs" for it in lines) else 0
    texts = [read(it[1:]) if it.startswith("@") else it for it in words[1:] if it != "--"]
    sys.stdout.write(exact_cells.lines(*texts) if len(texts) == 2 else exact_places.line(*texts))
    return 0


if __name__ == "__main__":
    sys.exit(main(sys.argv[1:]))
