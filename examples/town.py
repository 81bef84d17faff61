#!/usr/bin/env python3
"""Writes the land register of a made-up town of any size: schema.sql, parcel.csv and tree.csv, for docs/SCALE.md.

usage: town.py [--parcels N] [--trees N] [--seed N] FOLDER

The land is cut in two again and again, across its longer side and never quite in the middle. Large blocks are cut along a
street, which belongs to nobody, and small ones along a fence. So parcels are of many sizes, and most meet their
neighbours' borders between corners. Trees are anywhere, in the streets too. Units are centimetres. The same seed gives
the same town.
"""
import argparse
import os
import random

SCHEMA = """-- A town: its parcels and its trees. Units are centimetres.
CREATE TABLE parcel (id INTEGER PRIMARY KEY, purpose TEXT NOT NULL, owner INTEGER, geom POLYGON NOT NULL);
CREATE TABLE tree (id INTEGER PRIMARY KEY, kind TEXT, place POINT NOT NULL);
"""
PURPOSES = ["house", "house", "house", "garden", "garden", "shop", "field", "school"]
KINDS = ["lime", "oak", "plane", "birch", "pear"]
# A parcel's side, about; a street's width; blocks of fewer parcels are cut along fences.
SIDE, STREET, BLOCK = 2_500, 900, 12
LIMIT = 10_000_000


def blocks(land, count, draw):
    """Yields the sides of so many parcels of a piece of land: its least x, least y, greatest x and greatest y."""
    waiting = [(land, count)]
    while waiting:
        (west, south, east, north), count = waiting.pop()
        if count == 1:
            yield west, south, east, north
            continue
        share = min(max(round(count * draw.uniform(0.35, 0.65)), 1), count - 1)
        gap = STREET if count > BLOCK else 0
        if east - west >= north - south:
            at = west + (east - west - gap) * share // count
            parts = (west, south, at, north), (at + gap, south, east, north)
        else:
            at = south + (north - south - gap) * share // count
            parts = (west, south, east, at), (west, at + gap, east, north)
        waiting += [(parts[1], count - share), (parts[0], share)]


def write(folder, parcels, trees, seed):
    draw = random.Random(seed)
    side = int(SIDE * parcels**0.5 * 1.2)
    if not 1 <= parcels or side > 2 * LIMIT:
        raise SystemExit("town.py: from 1 parcel to 40,000,000")
    os.makedirs(folder, exist_ok=True)
    with open(f"{folder}/schema.sql", "w", encoding="utf-8") as file:
        file.write(SCHEMA)
    low = -side // 2
    with open(f"{folder}/parcel.csv", "w", encoding="utf-8") as file:
        file.write("id,purpose,owner,geom\n")
        for at, (west, south, east, north) in enumerate(blocks((low, low, low + side, low + side), parcels, draw), 1):
            owner = "" if draw.random() < 0.03 else draw.randrange(1, parcels // 2 + 2)
            ring = f"{west} {south},{east} {south},{east} {north},{west} {north},{west} {south}"
            file.write(f'{at},{draw.choice(PURPOSES)},{owner},"POLYGON(({ring}))"\n')
    with open(f"{folder}/tree.csv", "w", encoding="utf-8") as file:
        file.write("id,kind,place\n")
        for at in range(1, trees + 1):
            kind = draw.choice(KINDS) if draw.random() < 0.9 else ""
            file.write(f"{at},{kind},POINT({low + draw.randrange(side)} {low + draw.randrange(side)})\n")


def main():
    parser = argparse.ArgumentParser(description="Writes a made-up town.")
    parser.add_argument("folder", metavar="FOLDER")
    parser.add_argument("--parcels", type=int, default=3_000)
    parser.add_argument("--trees", type=int, default=10_000)
    parser.add_argument("--seed", type=int, default=1)
    given = parser.parse_args()
    write(given.folder, given.parcels, given.trees, given.seed)


if __name__ == "__main__":
    main()
