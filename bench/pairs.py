#!/usr/bin/env python3
"""Relates random pairs of each two types in two ways, by edges and by labels, and lists where the matrices differ.

Geometries are drawn on a small grid, where they touch, overlap and share edges often. Some lines and areas have many edges,
which reach beyond it. For each two types it draws until 10,000 pairs are valid, prints the seed, how many were drawn and how many
different matrices there were, and ends with status 1 where two matrices of a pair differ. The seed of two types doesn't depend on
what ran before.

It needs Python's standard library and the built program: run `rt run` once in crates/gauge. The gate doesn't run it.
"""

import argparse
import random
import runpy
import subprocess
import sys

from gauged import GAUGE
from timing import ROOT

runpy.run_path(str(ROOT / "tools" / "paths.py"))

from sfq_audit import families
from sfq_audit.shapes import WORDS as TYPES


def draw(chance: random.Random, word: str) -> str:
    """The text of a random geometry of a type, which may have a fault."""
    return families.draw(chance, word).text


def relate_pairs(first: str, second: str, seed: str, count: int) -> tuple[int, list[str], list[tuple[tuple[str, str], str]]]:
    """Relates so many valid pairs of two types; returns how many were drawn, the matrices, and the pairs that differ."""
    chance = random.Random(seed)
    drawn = 0
    matrices: list[str] = []
    differing: list[tuple[tuple[str, str], str]] = []
    while len(matrices) < count:
        pairs = [(draw(chance, first), draw(chance, second)) for _ in range(2_000)]
        text = "".join(f"{a}\n{b}\n" for a, b in pairs)
        done = subprocess.run([str(GAUGE), "pairs"], input=text, capture_output=True, text=True)
        if done.returncode != 0:
            sys.exit(f"gauge ended with status {done.returncode}")
        for pair, answer in zip(pairs, done.stdout.splitlines()):
            drawn += 1
            if answer == "invalid":
                continue
            by_edges, by_labels = answer.split()
            matrices.append(by_edges)
            if by_edges != by_labels:
                differing.append((pair, answer))
    return drawn, matrices, differing


def main() -> None:
    parser = argparse.ArgumentParser(description=__doc__.splitlines()[0])
    parser.add_argument("--count", type=int, default=10_000, help="valid pairs of each two types (10000)")
    parser.add_argument("--seed", type=int, default=1, help="what the seeds begin with (1)")
    options = parser.parse_args()
    if not GAUGE.exists():
        sys.exit("the program isn't built: run `rt run` in crates/gauge once")
    bad = 0
    for first in TYPES:
        for second in TYPES:
            seed = f"{options.seed} {first} {second}"
            drawn, matrices, differing = relate_pairs(first, second, seed, options.count)
            print(f"seed '{seed}': {len(matrices)} of {drawn} valid, {len(set(matrices))} matrices, {len(differing)} differ", flush=True)
            for pair, answer in differing[:3]:
                print(f"  {pair[0]} and {pair[1]}: {answer}")
            bad += len(differing)
    sys.exit(f"{bad} pairs differ" if bad else 0)


if __name__ == "__main__":
    main()
