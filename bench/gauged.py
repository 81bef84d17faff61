"""What `areas.py` and `relate.py` share: the program `gauge`, its peers over GEOS and JTS, and how a turn is timed."""

import argparse
import pathlib
import shutil
import subprocess
import sys
from typing import Optional

from timing import ROOT, measure

GAUGE = ROOT / "crates" / "gauge" / "out" / "gauge"
PEERS = pathlib.Path(__file__).resolve().parent
JTS = "/usr/share/java/jts-core.jar"
# One thread, and no code made beside the program: else what is measured depends on how busy the processors are.
JAVA = ("java", "-XX:+UseSerialGC", "-Xbatch")


def built_peer(folder: pathlib.Path) -> list[str]:
    """Compiles the peer over GEOS, and returns its command; ends the program where something that it needs isn't there."""
    if not GAUGE.exists():
        sys.exit("the program isn't built: run `rt run` in crates/gauge once")
    if shutil.which("gcc") is None:
        sys.exit("gcc isn't installed: apt-get install gcc libgeos-dev")
    peer = folder / "geos_peer"
    subprocess.run(["gcc", "-O2", "-o", str(peer), str(PEERS / "geos_peer.c"), "-lgeos_c"], check=True)
    return [str(peer)]


def java_peer(folder: pathlib.Path, jar: str) -> Optional[list[str]]:
    """Compiles the peer over JTS, and returns its command; None where the compiler or the jar isn't there, which it says."""
    if shutil.which("javac") is None or not pathlib.Path(jar).exists():
        lacking = f"javac or {jar} isn't there (apt-get install default-jdk-headless libjts-java)"
        print(f"JTS is left out: {lacking}", file=sys.stderr)
        return None
    subprocess.run(["javac", "-cp", jar, "-d", str(folder), str(PEERS / "JtsPeer.java")], check=True)
    return [*JAVA, "-cp", f"{jar}:{folder}", "JtsPeer"]


def each(command: list[str], word: str, folder: pathlib.Path, repeats: int) -> tuple[float, str, int]:
    """The least processor seconds of one turn over the file `input`, start-up left out, the answer and the peak kilobytes.

    The turns take as long as start-up at least, since its own noise would else be all that is measured."""
    def run(turns: int) -> tuple[float, float, int]:
        return measure([*command, word, str(turns)], folder, folder / "input")

    idle = min(run(0)[1] for _ in range(repeats))
    turns, taken = 1, run(1)
    while taken[1] - idle <= max(0.4, idle) and turns < 4096:
        turns *= 4
        taken = run(turns)
    runs = [taken] + [run(turns) for _ in range(repeats - 1)]
    least = max(min(processor for _, processor, _ in runs) - idle, 1e-9) / turns
    return least, (folder / "output").read_text(), max(peak for _, _, peak in runs)


def each_in_java(command: list[str], word: str, folder: pathlib.Path, repeats: int) -> tuple[float, str, int]:
    """The same of the peer over JTS, which times its turns itself."""
    _, _, peak = measure([*command, word, str(repeats + 2)], folder, folder / "input")
    answer, least = (folder / "output").read_text().splitlines()
    return float(least), answer + "\n", peak


def options_of(summary: str) -> argparse.ArgumentParser:
    """The words that a measure of shapes takes."""
    parser = argparse.ArgumentParser(description=summary)
    parser.add_argument("--repeats", type=int, default=3, help="runs of each measure (3)")
    parser.add_argument("--only", default="", help="the shapes whose name has this word")
    return parser
