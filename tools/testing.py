"""The parts of ./test: what each runs, and what the gate adds to them."""
import functools
import glob
import json
import os
import re
import shutil
import subprocess
import sys
import tempfile
import time
from typing import Iterable, Optional

import calls
import cost
import edits
import front_door
import gate_edits
import library
import repository
import tiles
import unproved
from parts import Beat, Counts, Failure, Part, Report, Skipped, read, room, run, side_by_side

ROOT = repository.ROOT
# For how many seconds a program may run without proof. With run-time checks the scripts take a minute where nothing else runs.
PLAYING = "600"
# After so many seconds a file of tests is ended, unless long tests are asked for.
MOST_SECONDS = 2_700.0
# The name of the part that builds the program without proof, for which the files of tests wait that ask it.
PROGRAM = "the unproved program"
LIBRARIES = "the C libraries, the package for JavaScript and the web page"
# What a file of Python imports, by its first word.
IMPORTED = re.compile(r"(?m)^(?:import|from) (\w+)")


def outcome(name: str, is_well: bool, text: str, part: str, number: int = 1) -> Report:
    """Returns what came of a part whose tests pass or fail together, where `part` is its word for ./test."""
    return Report(number) if is_well else Report(failures=[Failure(name, text, f"./test {part}")])


def lint() -> Report:
    status, out, err = run([f"{ROOT}/lint"])
    return outcome("./lint", status == 0, out + err, "lint")


def play_program(rt: str, crate: str) -> Report:
    """Runs a program on the files beside its source, without proof, and compares what it writes."""
    folder = f"{ROOT}/crates/{crate}"
    words = []
    for at, _, names in os.walk(f"{folder}/data"):
        for it in sorted(names):
            path = os.path.join(at, it)
            words += ["--data", f"{os.path.relpath(path, f'{folder}/data')}={path}"]
    arguments = read(f"{folder}/args").splitlines()
    with open(f"{folder}/stdin" if os.path.isfile(f"{folder}/stdin") else os.devnull, "rb") as given:
        status, out, err = run([sys.executable, "-B", rt, "try", "--seconds", PLAYING, *words, "--", *arguments], folder, given)
    is_well = out == read(f"{folder}/stdout") and status == int(read(f"{folder}/status") or 0)
    return outcome(f"program {crate}", is_well and "run=ended" in err, out + err, crate)


def try_tests(rt: str, crate: str) -> Report:
    """Runs the #[test] functions of a crate, without proof."""
    status, out, err = run([sys.executable, "-B", rt, "try", "--test"], f"{ROOT}/crates/{crate}")
    found = re.findall(r"^test \S+ \.\.\. (\S+)", out, re.M)
    passed = found.count("ok")
    is_well = status == 0 and 0 < passed == len(found)
    failures = [] if is_well else [Failure(f"tests of {crate}", out + err, f"./test {crate}")]
    return Report(passed, failures)


def build_program() -> Report:
    """Builds the program that ./sfq keeps, where none of the present sources is there."""
    status, out, err = run([sys.executable, "-B", f"{ROOT}/tools/unproved.py", "relate", "POINT(1 1)", "POINT(1 1)"])
    return outcome(PROGRAM, status == 0 and out == "0FFFFFFF2\n", out + err, "program")


def run_file(name: str, choice: str) -> Report:
    """Runs the tests of a file of tests/ that a choice of tools/system_tests.py takes."""
    with room() as folder:
        results = f"{folder}/results"
        status, out, err = run([sys.executable, "-B", f"{ROOT}/tools/system_tests.py", name, choice, results], most=None if choice == "all" else MOST_SECONDS)
        rows = [json.loads(it) for it in read(results).splitlines()]
    command = f"./test {'--long ' if choice == 'all' else ''}{name}"
    failures = [Failure(it["name"], it["text"], command) for it in rows if it["what"] == "failed"]
    if status:
        failures.append(Failure(name, f"{out}{err}\nThe tests of this file ended with status {status}.", command))
    skipped = [Skipped(it["name"], it["text"]) for it in rows if it["what"] == "skipped"]
    return Report(sum(it["what"] == "passed" for it in rows), failures, skipped)


def files_of_tests() -> dict[str, str]:
    """Returns the text of each file of tests/ by its name, those without tests as well."""
    return {os.path.basename(it)[:-3]: read(it) for it in sorted(glob.glob(f"{ROOT}/tests/*.py"))}


def with_imported(name: str, files: dict[str, str]) -> str:
    """Returns the text of a file of tests/ with those of the files there that it imports, which may have the marks of its classes."""
    found: dict[str, str] = {}
    left = [name]
    while left:
        it = left.pop()
        if it in files and it not in found:
            found[it] = files[it]
            left += IMPORTED.findall(found[it])
    return "".join(found.values())


def file_parts(choice: str, program: Optional[str] = None, libraries: Optional[str] = None) -> list[Part]:
    """Returns a part for each file of tests: those that ask the program come after that part, those that call the libraries after that."""
    found, files = [], files_of_tests()
    for name in files:
        if name.startswith("test_"):
            text = with_imported(name, files)
            after = [program] if program and "ASKS_PROGRAM" in text else []
            after += [libraries] if libraries and "ASKS_LIBRARY" in text else []
            found.append(Part(name, functools.partial(run_file, name, choice), tuple(after)))
    return found


def programs() -> list[str]:
    """Returns the programs that say what they have to write. What sfq writes is asked by tests/."""
    return [
        it for it in repository.read_crates()
        if it != "sfq" and os.path.isfile(f"{ROOT}/crates/{it}/stdout") and os.path.isfile(f"{ROOT}/crates/{it}/src/main.rt")
    ]  # fmt: skip


def parts_without_proof(choice: str, kit: str) -> list[Part]:
    """Returns the parts of ./test in the order in which they begin: first what takes longest. `kit` is a folder for links to the kit."""
    parts: list[Part] = []
    if shutil.which("rt"):
        rt = unproved.make_kit(f"{kit}/kit")
        parts += [Part(it, functools.partial(try_tests, rt, it)) for it in reversed(repository.crates_with_tests())]
        parts += [Part("program", build_program)]
        parts += [Part(it, functools.partial(play_program, rt, it)) for it in programs()]
    parts += [Part("lint", lint)] if os.path.isfile(f"{ROOT}/lint") else []
    files = file_parts(choice, "program")
    return parts + sorted(files, key=lambda it: len(it.after))


def without_proof(is_long: bool, named: list[str]) -> int:
    """Runs all parts, or those that are named: lint, a crate, or a file of tests/ such as test_manual."""
    print("sfq: tests without proof; the first builds take some minutes", flush=True)
    counts = Counts()
    with room() as kit:
        parts = parts_without_proof("all" if is_long else "short", kit)
        unknown = [it for it in named if it not in {part.name for part in parts}]
        if unknown:
            print(f"sfq: no part {unknown[0]}: the parts are {', '.join(it.name for it in parts)}", file=sys.stderr)
            return 2
        if not shutil.which("rt") and not named:
            skipped = Report(skipped=[Skipped("tests of crates, programs", "needs the command rt of the Rattle kit")])
            counts.take("crates", skipped, 0)
        side_by_side(counts, [it for it in parts if not named or it.name in named])
    return counts.close()


def prove_all(counts: Counts) -> bool:
    """Runs `rt ci`, whose lines go through, and counts what it counted. Returns whether it went well."""
    before, begun = repository.current("sum")[1], time.monotonic()
    last = ""
    with cost.Cost() as spent, Beat("rt ci") as beat:
        child = subprocess.Popen(["rt", "ci"], cwd=ROOT, stdout=subprocess.PIPE, text=True, errors="replace")
        try:
            for line in child.stdout or ():
                print(line, end="", flush=True)
                beat.note()
                last = line.strip() or last
            status = child.wait()
        finally:
            if child.poll() is None:
                child.terminate()
    found = re.fullmatch(r"(\d+) passed, (\d+) failed", last)
    passed, failed = (int(found[1]), int(found[2])) if found else (0, 0)
    is_well = status == 0 and found is not None and failed == 0
    failures = [] if is_well else [Failure(f"rt ci ({last})", "See the lines of rt ci above.", "rt ci")] * max(1, failed)
    counts.take(f"rt ci; {spent.line()}", Report(passed, failures), time.monotonic() - begun)
    if is_well and repository.current("sum")[1] == before:
        stamp_programs(before)
    return is_well


def stamp_programs(total: str) -> None:
    """Notes that the programs which `rt ci` left are the proved ones of the present sources."""
    if os.path.isfile(repository.PROGRAM):
        repository.current("stamp", total)
    if os.path.isfile(tiles.PROGRAM):
        tiles.stamp()


def compile_part(folder: str, compiled: dict[str, calls.Compiled], crate: str) -> Report:
    """Compiles the calls of a crate over the libraries that `rt ci` left proved."""
    try:
        compiled[crate] = calls.compile_calls(folder, keeps=False, name=crate)
    except calls.Failure as it:
        return Report(failures=[Failure(f"the calls of {crate}", str(it), "./build --library, --javascript and --web")])
    return Report(1)


def link_part(compiled: dict[str, calls.Compiled], crates: int) -> Report:
    """Makes the C libraries, and where binaryen is there the package for JavaScript and the web page, once the calls of so many crates are compiled."""
    if len(compiled) < crates:
        return Report(skipped=[Skipped(LIBRARIES, "needs calls that couldn't be compiled")])
    try:
        for it in library.ALL:
            library.link(compiled[it.crate].archive, it)
        if shutil.which("wasm-opt"):
            import javascript_package
            import web_page

            modules = javascript_package.modules_of(compiled)
            javascript_package.write_package(modules)
            web_page.write_page(modules)
    except calls.Failure as it:
        return Report(failures=[Failure(LIBRARIES, str(it), "./build --library, --javascript and --web")])
    return Report(1)


def library_parts(folder: str) -> list[Part]:
    """Returns the parts that make the libraries, in a folder: one for the calls of each crate, and behind these what links them."""
    crates = [it.crate for it in library.ALL]
    if shutil.which("wasm-opt"):
        import javascript_package

        crates += [name for it in javascript_package.MODULES for name in it.crates]
    compiled: dict[str, calls.Compiled] = {}
    # The calls of sfq_c take the least time, so they come last.
    makes = [Part(f"the calls of {it}", functools.partial(compile_part, folder, compiled, it)) for it in reversed(dict.fromkeys(crates))]
    return [*makes, Part(LIBRARIES, functools.partial(link_part, compiled, len(makes)), tuple(it.name for it in makes))]


def take_door(counts: Counts) -> None:
    """Runs README's two commands in a fresh clone."""
    begun = time.monotonic()
    counts.take("README's two commands in a fresh clone", front_door.walk(), time.monotonic() - begun)


def with_proof() -> int:
    """First README's two commands in a fresh clone, then `rt ci`, then the tests of what that proved.

    What ./test ran in the clone isn't run here again, but where this folder has uncommitted changes. `rt ci` proves and runs the
    crates' tests and the programs. At its end what earlier checks kept is there again, so the C library is made of what it proved
    only where nothing was kept.
    """
    print("sfq: the gate: README's two commands in a fresh clone, the proofs, and the tests of what is proved", flush=True)
    counts = Counts()
    take_door(counts)
    if not front_door.is_committed():
        lints = [Part("lint", lint)] if os.path.isfile(f"{ROOT}/lint") else []
        side_by_side(counts, lints + file_parts("before"))
    is_new = not glob.glob(f"{ROOT}/crates/*/out/rlib")
    is_left = prove_all(counts) and is_new
    with tempfile.TemporaryDirectory(prefix="sfq-calls-") as folder:
        # What is made of the proved libraries, and the edits, fill the processors until the tests of the libraries can begin.
        makes = [*library_parts(folder), *gate_edits.parts_of_gate()] if is_left and calls.CRATE in repository.read_crates() else []
        side_by_side(counts, makes + file_parts("after", libraries=LIBRARIES))
    return counts.close()


def try_door() -> int:
    """Runs README's two commands in a fresh clone, as the gate does."""
    counts = Counts()
    take_door(counts)
    return counts.close()


def try_edits(crates: list[str]) -> int:
    """Tries the edits of crates/CRATE/edits in a copy of the repository."""
    counts = Counts()
    with tempfile.TemporaryDirectory(prefix="sfq-edits-") as folder, Beat("edits"):
        shutil.copyfile(f"{ROOT}/HANDLES", f"{folder}/HANDLES")
        known = repository.read_crates()
        for it in crates or known:
            if it not in known:
                repository.fail(f"no crate {it}")
            paths = sorted(glob.glob(f"{ROOT}/crates/{it}/edits/*.edit"))
            if paths:
                copy_crates(known, it, folder)
                with open(f"{folder}/crates.txt", "w", encoding="utf-8") as file:
                    copied = sorted(os.listdir(f"{folder}/crates"))
                    file.write("".join(f"{name}: {' '.join(known[name])}\n" for name in copied))
                try_edits_of(counts, it, paths, folder)
            elif crates:
                counts.take(f"edits of {it}", Report(skipped=[Skipped(it, "it has no edits")]), 0)
    return counts.close()


def copy_crates(known: dict[str, list[str]], crate: str, folder: str) -> None:
    """Copies the crate and those below it, with what earlier checks kept and without edits."""
    if crate in known and not os.path.isdir(f"{folder}/crates/{crate}"):
        leave_out = shutil.ignore_patterns("must-fail", "edits")
        shutil.copytree(f"{ROOT}/crates/{crate}", f"{folder}/crates/{crate}", ignore=leave_out)
        for it in known[crate]:
            copy_crates(known, it, folder)


def take_edit(counts: Counts, name: str, is_refused: bool, seconds: float, text: str = "") -> None:
    crate = name.partition("/")[0]
    failures = [] if is_refused else [Failure(f"edit {name}", text, f"./test --edits {crate}")]
    counts.take(f"edit {name}", Report(int(is_refused), failures), seconds)


def try_edits_of(counts: Counts, crate: str, paths: Iterable[str], folder: str) -> None:
    """Tries edits of different functions by one check, and by `rt must-fail` those that this doesn't settle."""
    place = f"{folder}/crates/{crate}"
    groups, left = edits.parted(crate, place, [edits.Edit(it) for it in paths])
    for group in groups:
        refused, took = tried_together(crate, place, group)
        for edit in refused:
            take_edit(counts, f"{crate}/{edit.name}", True, took / len(group))
        left += [it for it in group if it not in refused]
    if not left:
        return
    os.mkdir(f"{place}/must-fail")
    for edit in left:
        shutil.copy(edit.path, f"{place}/must-fail")
    begun = time.monotonic()
    status, out, err = run(["rt", "must-fail", crate], folder)
    took = time.monotonic() - begun
    for edit in left:
        name = f"{crate}/{edit.name}"
        said = next((line for line in (out + err).splitlines() if f"must-fail {name}: " in line), "")
        print(said or out + err, flush=True)
        take_edit(counts, name, f"must-fail {name}: refused" in said, took / len(left), f"rt must-fail: status {status}")


def tried_together(crate: str, folder: str, group: list[edits.Edit]) -> tuple[list[edits.Edit], float]:
    """Returns those of a group of edits that one check refuses, and how long that took."""
    known, root = edits.texts_of(folder, group), edits.root_of(folder)
    changed = edits.changed(known, group)
    if changed is None:
        return [], 0.0
    edits.write(folder, changed)
    begun = time.monotonic()
    _, out, err = run(["rt", "check"], folder)
    edits.write(folder, known)
    refused = edits.refused_in(out + err)
    return [it for it in group if it.functions(crate, known[it.file], root) & refused], time.monotonic() - begun


