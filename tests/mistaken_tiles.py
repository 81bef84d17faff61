#!/usr/bin/env python3
"""sfq-tiles with a mistake that the environment's MISTAKE names, which tests have to see; SFQ_TILES names the right program.

`open` leaves out of a tile each row that meets its cell on the west or south border alone, and `first` leaves out of a tile each row
that an earlier tile has.
"""
import csv
import os
import re
import subprocess
import sys

sys.dont_write_bytecode = True

import tile_model


def is_left_out(key, box, cell, seen):
    """Whether the mistake leaves a row out of the tile of a cell. `seen` are the keys that earlier tiles have."""
    if os.environ["MISTAKE"] == "first":
        return key in seen
    return cell is not None and (box[1] <= cell[0] or box[3] <= cell[2])


def spoil(path, column, cell, seen):
    """Writes a tile anew with the mistake, and returns how many rows it has."""
    header, *found = tile_model.records(path)
    place = [it.lower() for it in header].index(column.lower())
    kept = [it for it in found if not is_left_out(it[0], tile_model.envelope(it[place]), cell, seen)]
    seen.update(it[0] for it in found)
    with open(path, "w", encoding="utf-8", newline="") as file:
        csv.writer(file, lineterminator="\n").writerows([header, *kept])
    return len(kept)


def main(words):
    ran = subprocess.run([os.environ["SFQ_TILES"], *words], stdout=subprocess.PIPE, text=True)
    parts = [re.fullmatch(r"(\w+)=\w+\.(\w+)(?::.*)?", it) for it in words if "=" in it]
    if ran.returncode or not parts or not all(parts):
        sys.stdout.write(ran.stdout)
        return ran.returncode
    listed, seen = list(csv.DictReader(ran.stdout.splitlines())), {it[1]: set() for it in parts}
    for record in listed:
        for name, column in (it.groups() for it in parts):
            path = f"{words[-1]}/tile-{record['tile']}/{name}.csv"
            record[name] = spoil(path, column, tile_model.cell_of(record), seen[name])
    writer = csv.DictWriter(sys.stdout, listed[0], lineterminator="\n")
    writer.writeheader()
    writer.writerows(listed)
    return 0


if __name__ == "__main__":
    sys.exit(main(sys.argv[1:]))
