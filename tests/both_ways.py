"""Imports sources in both ways, in batches of columns and record by record, and prints where the two differ.

    both_ways.py ROOM SOURCE [OPTION ..] [-- SOURCE ..]

Each import makes a folder in ROOM. A line for each says which way it took, and what differs. Debian's Python runs it, which has GDAL.
"""
import os
import sys

from sfq.commands import endings, imports
from sfq.layers import batches


# A few records, so that there are many batches.
MOST = int(os.environ.get("MOST", batches.MOST))


def files(folder):
    """Returns the bytes of the files of a folder by their names."""
    found = {}
    for name in sorted(os.listdir(folder)) if os.path.isdir(folder) else ():
        with open(os.path.join(folder, name), "rb") as file:
            found[name] = file.read()
    return found


def made(words, folder, fewest):
    """Makes an import, and returns its files and what was said; and why records were read one by one, each time that they were."""
    batches.FEWEST, batches.MOST, said, single = fewest, MOST, [], []
    before, new = batches.NotInColumns.__init__, lambda self, why: (single.append(why), before(self, why))[1]
    batches.NotInColumns.__init__ = new
    try:
        given, options = imports.parsed([*words, "--out", folder])
        imports.import_sources(given.source, folder, options, say=said.append)
    except (endings.Stopped, OSError) as error:
        said.append(f"stopped: {error}")
    finally:
        batches.NotInColumns.__init__ = before
    return files(folder), said, single


def main(room, *words):
    each = [[]]
    for it in words:
        each = [*each, []] if it == "--" else [*each[:-1], [*each[-1], it]]
    for number, its in enumerate(each):
        columns, one, why = made(its, f"{room}/{number}-columns", 0)
        single, other, _ = made(its, f"{room}/{number}-single", sys.maxsize)
        differ = [it for it in {*columns, *single} if columns.get(it) != single.get(it)] + ["what is said"] * (one != other)
        print(" ".join(its), "|", "columns" if not why else f"single: {why[0]}", "|", ", ".join(sorted(differ)) or "same", flush=True)


if __name__ == "__main__":
    main(*sys.argv[1:])
