"""What the measures share: how a process is timed, how figures are printed, and how tables come into documents."""

import argparse
import math
import os
import pathlib
import re
import runpy
import shutil
import subprocess
import sys
from typing import Optional, Sequence, Union

import machine

ROOT = pathlib.Path(__file__).resolve().parent.parent
runpy.run_path(str(ROOT / "tools" / "paths.py"))
from repository import write_whole

PROGRAM = ROOT / "crates" / "sfq" / "out" / "sfq"
# The document that has the tables of the measures.
README = ROOT / "bench" / "README.md"

# Runs a command and prints its wall seconds, processor seconds, peak kilobytes and status. It is a process of its own,
# since a process starts with its parent's peak: so a peak below that of this small one can't be shown. A signal that ends
# it ends the command too.
PROBE = """
import os, resource, signal, sys, time
signal.signal(signal.SIGINT, signal.SIG_DFL)
resource.setrlimit(resource.RLIMIT_CPU, (int(sys.argv[1]), int(sys.argv[1]) + 1))
signal.pthread_sigmask(signal.SIG_BLOCK, [signal.SIGTERM])
begun = time.perf_counter()
child = os.posix_spawnp(sys.argv[4], sys.argv[4:], os.environ, setsigmask=[], file_actions=[
    (os.POSIX_SPAWN_OPEN, 0, sys.argv[2], os.O_RDONLY, 0),
    (os.POSIX_SPAWN_OPEN, 1, sys.argv[3], os.O_WRONLY | os.O_CREAT | os.O_TRUNC, 0o600)])
signal.signal(signal.SIGTERM, lambda *_: (os.kill(child, signal.SIGKILL), os.waitpid(child, 0), os._exit(1)))
signal.pthread_sigmask(signal.SIG_UNBLOCK, [signal.SIGTERM])
_, status, usage = os.wait4(child, 0)
wall = time.perf_counter() - begun
print(wall, usage.ru_utime + usage.ru_stime, usage.ru_maxrss, os.waitstatus_to_exitcode(status))
"""


# The processor seconds that a measure without a limit of its own may take: a day.
A_DAY = 86_400


def probe(command: Sequence[object], folder: pathlib.Path, given: Union[str, pathlib.Path], seconds: int) -> tuple[float, float, int, int]:
    """Runs a command on a file within a limit of processor seconds; returns wall seconds, processor seconds, peak kilobytes
    and the status, which is negative where a signal ended it. Its output goes to a file."""
    words = [str(seconds), str(given), str(folder / "output"), *map(str, command)]
    with subprocess.Popen([sys.executable, "-S", "-E", "-c", PROBE, *words], cwd=folder, stdout=subprocess.PIPE) as running:
        try:
            said, _ = running.communicate()
        except BaseException:
            running.terminate()
            raise
    if running.returncode:
        sys.exit(f"{command[0]} couldn't be run")
    wall, processor, peak, status = said.split()
    return float(wall), float(processor), int(peak), int(status)


def measure(command: Sequence[object], folder: pathlib.Path, given: Union[str, pathlib.Path] = os.devnull) -> tuple[float, float, int]:
    """Runs a command on a file; answers wall seconds, processor seconds and peak kilobytes. Its output goes to a file."""
    wall, processor, peak, status = probe(command, folder, given, A_DAY)
    if status != 0:
        sys.exit(f"{command[0]} ended with status {status}")
    return wall, processor, peak


def best(command: Sequence[object], folder: pathlib.Path, repeats: int) -> tuple[float, float, int, int]:
    """The least times and the greatest memory of several runs, and the number of lines of the output."""
    runs = [measure(command, folder) for _ in range(repeats)]
    with open(folder / "output", "rb") as output:
        lines = sum(1 for _ in output)
    return min(r[0] for r in runs), min(r[1] for r in runs), max(r[2] for r in runs), lines


def instructions(command: Sequence[object], folder: pathlib.Path, given: Union[str, pathlib.Path] = os.devnull, status: int = 0) -> int:
    """How many instructions a command takes on a file, as valgrind counts them: the same whatever else runs on the machine. Ends
    the program where the command's status isn't the one that is wanted."""
    if shutil.which("valgrind") is None:
        sys.exit("valgrind isn't installed: apt-get install valgrind")
    counting = ["valgrind", "--tool=cachegrind", "--cache-sim=no", f"--cachegrind-out-file={os.devnull}"]
    with open(given) as source, open(folder / "output", "wb") as output:
        ran = subprocess.run(
            [*counting, *map(str, command)], cwd=folder, stdin=source, stdout=output, stderr=subprocess.PIPE, text=True
        )
    if ran.returncode != status:
        sys.exit(f"{command[0]} ended with status {ran.returncode}")
    return int(re.findall(r"I +refs: +([\d,]+)", ran.stderr)[0].replace(",", ""))


def marked(command: Sequence[object], folder: pathlib.Path, status: int = 0, way: Sequence[str] = ("--instr-atstart=no",)) -> int:
    """How many instructions a command takes between the marks that it has for callgrind, or by another way in all. What callgrind
    writes goes to a file. Ends the program where the command's status isn't the one that is wanted."""
    with open(folder / "output", "wb") as output:
        ran = subprocess.run(
            ["valgrind", "--tool=callgrind", f"--callgrind-out-file={folder}/callgrind.out", *way, *map(str, command)],
            cwd=folder, stdin=subprocess.DEVNULL, stdout=output, stderr=subprocess.PIPE, text=True,
        )
    if ran.returncode != status:
        sys.exit(f"{command[0]} ended with status {ran.returncode}")
    return int(re.findall(r"Collected : (\d+)", ran.stderr)[0])


def shares(command: Sequence[object], folder: pathlib.Path, status: int = 0) -> list[tuple[str, float]]:
    """Which functions take how many of a hundred instructions of a command, those that take most first. Ends the program where the
    command's status isn't the one that is wanted."""
    marked(command, folder, status, way=())
    return counted_shares(folder)


def counted_shares(folder: pathlib.Path) -> list[tuple[str, float]]:
    """Which functions take how many of a hundred instructions of what callgrind counted last, those that take most first."""
    counted = folder / "callgrind.out"
    shown = subprocess.run(["callgrind_annotate", str(counted)], capture_output=True, text=True, check=True).stdout
    found: dict[str, float] = {}
    for share, path in re.findall(r"^ *[\d,]+ \( *([\d.]+)%\)  \S*?:(\S+)", shown, re.M):
        name = short_name(path)
        found[name] = found.get(name, 0) + float(share)
    return sorted(found.items(), key=lambda it: -it[1])


def short_name(path: str) -> str:
    """The name of a function without its modules and what tells its copies apart, with its type if it has one."""
    *_, before, name = ["", *re.sub(r"('\d+|::<#\w+>)", "", path).split("::")]
    return f"{before}::{name}" if before[:1].isupper() else name


def exponent(before: Optional[tuple[float, float]], now: tuple[float, float]) -> str:
    """The exponent by which time grows, of two pairs of a size and a time; nothing where there was none before."""
    if before is None:
        return ""
    return f"{math.log(now[1] / before[1]) / math.log(now[0] / before[0]):.2f}"


def print_heads(heads: Sequence[str]) -> None:
    """Prints the first two lines of a Markdown table."""
    print_columns(heads)
    print(rule_under(heads), flush=True)


def print_columns(columns: Sequence[str]) -> None:
    """Prints a line of a Markdown table."""
    print(line_of(columns), flush=True)


def line_of(columns: Sequence[str]) -> str:
    """A line of a Markdown table."""
    return "| " + " | ".join(columns) + " |"


def rule_under(heads: Sequence[str]) -> str:
    """The line under the heads of a Markdown table."""
    return "|---" * len(heads) + "|"


class Table:
    """A Markdown table that is printed row by row, and can be written into a document.

    A head that names peers, such as `GEOS`, is shown with their versions. The heads in `peers` are those of the columns that depend on
    which peers there are. Beside newer peers only these are written, behind the columns of the table that is there.
    """

    def __init__(self, heads: Sequence[str], peers: Sequence[str] = ()) -> None:
        heads = [machine.versioned(it) for it in heads]
        self.peers = [at for at, it in enumerate(heads) if without_versions(it) in peers]
        self.lines = [line_of(heads), rule_under(heads)]
        print_heads(heads)

    def add(self, columns: Sequence[str]) -> None:
        """Prints a row, and keeps it."""
        self.lines.append(line_of(columns))
        print_columns(columns)

    def write_into(self, path: pathlib.Path, is_of_peers: bool = False) -> None:
        """Writes the table in place of the one of a document that has the same heads, in bench/README.md below the day and the commit.

        `is_of_peers` says that the heads say which peers it is of, so that newer ones have a table of their own.
        """
        text, said = path.read_text(), f"{machine.day()}, commit {machine.commit()}"
        if machine.is_beside_newer() and not self.peers and not is_of_peers:
            sys.exit("this table has no columns of newer peers, so it isn't written")
        if not machine.is_beside_newer() or is_of_peers:
            write_whole(str(path), with_table(text, self.lines, f"<!-- {said} -->" if path == README else None))
        else:
            write_whole(str(path), with_newer(text, self.lines, self.peers, f"<!-- newer peers: {said} -->" if path == README else None))


# What is above a table of bench/README.md: the day and the commit of its figures, and above that those of newer peers.
STAMP = re.compile(r"<!-- (\d{4}-\d\d-\d\d), commit (.+) -->")
NEWER = re.compile(r"<!-- newer peers: (\d{4}-\d\d-\d\d), commit (.+) -->")


def without_versions(line: str) -> str:
    """A line in which peers are named without their versions."""
    return re.sub(rf"\b({'|'.join(machine.PEERS.values())}) \d[\w.]*", r"\1", line)


def cells_of(line: str) -> list[str]:
    """The columns of a line of a Markdown table."""
    return [it.strip() for it in line.strip().strip("|").split("|")]


def found_table(lines: Sequence[str], heads: str) -> tuple[int, int]:
    """Where the table of a document begins and ends that has these heads, whatever versions they name, perhaps with more behind them."""
    wanted = cells_of(without_versions(heads))
    known = {at: cells_of(without_versions(line)) for at, line in enumerate(lines) if line.startswith("|") and lines[at - 1][:1] != "|"}
    found = [at for at, it in known.items() if it == wanted] or [at for at, it in known.items() if it[: len(wanted)] == wanted]
    if not found:
        sys.exit(f"no table begins with {heads}")
    return found[0], next((at for at in range(found[0], len(lines)) if not lines[at].startswith("|")), len(lines))


def labels_of(table: Sequence[str]) -> int:
    """How many columns of a table say what a row is: those before the first that names sfq, at least one."""
    return max(1, next((at for at, it in enumerate(cells_of(table[0])) if "sfq" in it), 1))


def rows_by_label(table: Sequence[str], count: int) -> dict[Union[str, tuple[str, ...]], list[str]]:
    """The columns of the heads and the rows of a table, given as lines, by what the row is."""
    heads, _, *rows = map(cells_of, table)
    return {"": heads, **{tuple(it[:count]): it for it in rows}}


def joined(table: Sequence[str], further: tuple[Sequence[str], Sequence[int]]) -> list[str]:
    """The lines of a table with further columns behind its rows; further rows have what there is of each by its label."""
    count = labels_of(table)
    behind = rows_by_label(further[0], count) if further[0] else {}
    lines = []
    for at, line in enumerate(table):
        cells = cells_of(line)
        if at == 1:
            lines.append(rule_under([*cells, *map(str, further[1])]))
        else:
            of_row = behind.get("" if at == 0 else tuple(cells[:count]))
            lines.append(line_of([*cells, *([of_row[it] for it in further[1]] if of_row else [""] * len(further[1]))]))
    return lines


def with_table(text: str, table: Sequence[str], stamp: Optional[str] = None) -> str:
    """A document's text in which a table, given as lines, is in place of the one with the same heads, below a stamp, if there is one,
    in place of the one above that. Further columns that are there, of newer peers, stay."""
    lines = text.split("\n")
    start, end = found_table(lines, table[0])
    own = len(cells_of(table[0]))
    table = joined(table, (lines[start:end], range(own, len(cells_of(lines[start])))))
    if stamp:
        table = [stamp, *table]
        start -= bool(STAMP.fullmatch(lines[start - 1]))
    return "\n".join(lines[:start] + table + lines[end:])


def with_newer(text: str, table: Sequence[str], columns: Sequence[int], stamp: Optional[str] = None) -> str:
    """A document's text in which some columns of a table, given as lines, are behind those of the table that is there with its heads, in
    place of others; above it is a stamp, if there is one, in place of the one there."""
    lines = text.split("\n")
    start, end = found_table(lines, table[0])
    own = len(cells_of(table[0]))
    there = [line_of(cells_of(it)[:own]) for it in lines[start:end]]
    table = joined(there, (table, columns))
    first = start - bool(STAMP.fullmatch(lines[start - 1]))
    above = lines[first:start]
    if stamp:
        above = [stamp, *above]
        first -= bool(NEWER.fullmatch(lines[first - 1]))
    return "\n".join(lines[:first] + above + table + lines[end:])


def enter_folder(folder: str) -> None:
    """Runs this program in a folder of peers in place of here; there it names them."""
    import peer_folder

    if machine.is_beside_newer():
        print(f"Peers: {machine.peers()}\n", flush=True)
        return
    lacking = peer_folder.lacking_to_run(folder)
    if lacking:
        sys.exit(lacking)
    known = {**peer_folder.environment(folder), machine.COMMIT: machine.commit()}
    words = peer_folder.words_in(folder, ["python3", "-B", os.path.abspath(sys.argv[0]), *sys.argv[1:]])
    os.execvpe(words[0], words, known)


def read_options(parser: argparse.ArgumentParser, parts: Sequence[str] = ()) -> argparse.Namespace:
    """The options of a program whose tables are in bench/README.md, `--write` among them. That is refused beside each of the options
    in `parts`, which leave a part of the tables out."""
    parser.add_argument("--write", action="store_true", help="write the tables into bench/README.md")
    parser.add_argument("--peers", metavar="DIR", help="run in a folder that tools/peer_folder.py made, beside its peers")
    options = parser.parse_args()
    if options.peers:
        enter_folder(options.peers)
    for it in parts:
        if options.write and (getattr(options, it) or None) != (parser.get_default(it) or None):
            parser.error(f"--write needs whole tables: leave '{it}' out")
    return options


def figure(number: float) -> str:
    """A number in three digits at the least."""
    return f"{number:.3g}" if number < 100 else f"{number:,.0f}"


def ratios(ours: float, peers: Sequence[float]) -> list[str]:
    """The columns of each peer's time and the ratio of ours to it, and that to the best of them."""
    columns = [column for time in peers for column in (figure(time), f"{ours / time:.2g}")]
    return [*columns, f"{ours / min(peers):.2g}"]
