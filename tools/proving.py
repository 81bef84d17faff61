"""Proves crates, as many at a time as processors and memory allow, and says how far it is.

The crates are those that something is made of, and each is proved once those below it are: first the one with the longest chain
of others above it, by several processes where fewer crates than that can be proved (see order.py). `rt` keeps what it proved, so a
run that was broken off goes on where it was. A crate that is proved gets the file out/proved: a sum over its files, those below
it and the kit's logic, and the last line of its check. While the sums stay the same, nothing is called.
"""
import contextlib
import hashlib
import os
import queue
import re
import signal
import subprocess
import sys
import threading
import time
from typing import Callable, Iterable, Optional, Sequence

import order
import repository
import shared_rt

# What a check from nothing takes at most, in bytes: two of four that ran beside each other took this much.
MEMORY_OF_A_CHECK = 3_000_000_000
# The name of a command; a line of it, or None at its end; its status, which is 0 before.
Event = tuple[str, Optional[str], int]


def processors() -> int:
    """Returns the number of processors, or what the control group's quota leaves of them."""
    count = len(os.sched_getaffinity(0))
    try:
        with open("/sys/fs/cgroup/cpu.max", encoding="ascii") as file:
            quota, period = file.read().split()
        return max(1, min(count, int(quota) // int(period)))
    except (OSError, ValueError):
        return count


def free_memory() -> int:
    """Returns the bytes of memory that are free, by the system and by the control group."""
    with open("/proc/meminfo", encoding="ascii") as file:
        free = int(re.findall(r"MemAvailable:\s+(\d+)", file.read())[0]) * 1024
    try:
        with open("/sys/fs/cgroup/memory.max", encoding="ascii") as most:
            with open("/sys/fs/cgroup/memory.stat", encoding="ascii") as used:
                held = re.search(r"^anon (\d+)", used.read(), re.M)
                return min(free, int(most.read()) - int(held[1])) if held else free
    except (OSError, ValueError):
        return free


def span(seconds: float) -> str:
    minutes, rest = divmod(int(seconds), 60)
    return f"{minutes} min {rest} s" if minutes else f"{rest} s"


def rt_words() -> tuple[list[str], bool]:
    """Returns the words that begin a call of `rt` in a crate's folder, and whether such calls work side by side."""
    words = [sys.executable, "-B", os.path.realpath(shared_rt.__file__)]
    ran = subprocess.run(words, stdout=subprocess.DEVNULL, stderr=subprocess.DEVNULL)
    return (words, True) if ran.returncode == 0 else (["rt"], False)


def link(root: str, crate: str) -> tuple[int, str]:
    """Links the program of a crate over what is proved, and returns the status and the log."""
    log = f"{root}/crates/{crate}/out/link.log"
    with open(log, "wb") as out:
        words = [*rt_words()[0], "run", "--", "--version"]
        ran = subprocess.run(words, cwd=f"{root}/crates/{crate}", stdin=subprocess.DEVNULL, stdout=out, stderr=out)
    return ran.returncode, log


def read_mark(name: str, root: str = repository.ROOT) -> list[str]:
    """Returns the lines of a crate's mark: its sum and the last line of its check."""
    try:
        with open(f"{root}/crates/{name}/out/proved", encoding="utf-8") as file:
            return (file.read().splitlines() + ["", ""])[:2]
    except (OSError, ValueError):
        return ["", ""]


class Crate:
    """A crate, and what is known of its proof."""

    def __init__(self, name: str, root: str, below: "list[Crate]", logic: str, libraries: list[str]) -> None:
        self.name, self.root, self.below, self.out = name, root, below, f"{root}/crates/{name}/out"
        self.own = self.sum_of_files()
        total = hashlib.sha256(repr((logic, libraries, self.own)).encode())
        total.update(repr([it.sum for it in below]).encode())
        self.every_below: dict[str, Crate] = {low.name: low for it in below for low in [*it.every_below.values(), it]}
        self.sum: str = total.hexdigest()
        self.text = ""
        self.line: Optional[str] = None
        self.is_done, self.is_lost = False, False

    def sum_of_files(self) -> str:
        total, self.lines = hashlib.sha256(), 0
        for path in repository.files_of(self.name, self.root):
            with open(path, "rb") as file:
                text = file.read()
            total.update(repr((os.path.relpath(path, self.root), text)).encode())
            self.lines += text.count(b"\n") * path.endswith(".rt")
        return total.hexdigest()

    def read_mark(self) -> bool:
        """Takes over what an earlier run, or one beside this one, proved. Returns whether there is something."""
        total, line = read_mark(self.name, self.root)
        if total == self.sum:
            self.line, self.is_done = line, True
        return self.is_done

    def note(self, line: str) -> None:
        """Notes that the crate is proved. `line` is the last one of its check; '-' where it was proved before and rt says no more."""
        self.line, self.is_done = line, True

    def write_mark(self, line: str) -> None:
        """Notes that the crate is proved, for later runs too."""
        self.note(line)
        os.makedirs(self.out, exist_ok=True)
        with open(f"{self.out}/proved.new", "w", encoding="utf-8") as file:
            file.write(f"{self.sum}\n{line}\n")
        os.replace(f"{self.out}/proved.new", f"{self.out}/proved")

    def functions(self) -> int:
        found = re.search(r"\bfunctions=(\d+)", self.line or "")
        return int(found[1]) if found else 0


def crates_of(root: str, logic: str, tops: Sequence[str] = ()) -> list[Crate]:
    """Returns the crates that these are made of, all where none is named, each after those below it."""
    made: dict[str, Crate] = {}
    lines = repository.read_crates(root)

    def make(name: str) -> Crate:
        if name not in made:
            below = [make(it) for it in lines[name] if it in lines]
            made[name] = Crate(name, root, below, logic, lines[name])
        return made[name]

    for it in tops or lines:
        if it in lines:
            make(it)
    return sorted(made.values(), key=lambda it: len(it.every_below))


def end_groups(children: Iterable["subprocess.Popen[str]"], is_over: Callable[["subprocess.Popen[str]"], bool]) -> None:
    """Ends the groups of those children that run still: by SIGTERM, and 10 seconds later by SIGKILL."""
    left = list(children)
    for number in (signal.SIGTERM, signal.SIGKILL):
        left = [it for it in left if not is_over(it)]
        for it in left:
            with contextlib.suppress(ProcessLookupError):
                os.killpg(it.pid, number)
        until = time.monotonic() + 10
        while not all(map(is_over, left)) and time.monotonic() < until:
            time.sleep(0.05)


class Proving:
    """One run over crates: `tops` and all below them. It goes on from what earlier runs proved."""

    # The most processes that one check gets.
    most_jobs = order.MOST_JOBS

    def __init__(self, root: str, kit: str, jobs: int = 0, tops: Sequence[str] = ()) -> None:
        self.root, self.kit, self.crates = root, kit, crates_of(root, repository.logic_of(kit), tops)
        self.named = {it.name: it for it in self.crates}
        self.jobs = jobs or max(1, min(self.processes(), free_memory() // MEMORY_OF_A_CHECK))
        self.take_over()
        self.children: dict[str, subprocess.Popen[str]] = {}
        self.events: queue.Queue[Event] = queue.Queue()
        self.failed, self.was_edited, self.begun = False, False, time.monotonic()
        self.on_terminal = sys.stdout.isatty()
        # The crates that are checked now, each with its processes.
        self.running: dict[str, int] = {}

    def processes(self) -> int:
        # A check that several processes share leaves some of them idle at its begin and end.
        return processors() * 5 // 4

    def take_over(self) -> None:
        for it in self.crates:
            it.read_mark()

    def make_plan(self, is_in_turn: bool = False) -> None:
        lines = {it.name: it.lines for it in self.crates}
        below = {it.name: [low.name for low in it.below] for it in self.crates}
        self.plan = order.Plan(below, lines, self.jobs, 1 if is_in_turn else self.jobs, self.most_jobs)

    def proved(self) -> list[Crate]:
        return [it for it in self.crates if it.line is not None]

    def ended(self) -> set[str]:
        """Returns the names of the crates that need no more time: proved ones, failed ones and those above these."""
        return {it.name for it in self.crates if it.is_done or it.is_lost or self.is_above_lost(it)}

    def is_above_lost(self, crate: Crate) -> bool:
        return any(it.is_lost for it in crate.every_below.values())

    def head(self) -> str:
        done = sum(it.is_done for it in self.crates)
        return f"{done} of {len(self.crates)} crates proved"

    def say(self, text: str) -> None:
        if self.on_terminal:
            print("\r\x1b[K", end="")
        print(text, flush=True)

    def renew(self) -> None:
        """Renews the one line that a terminal shows."""
        if not self.on_terminal:
            return
        now = ", ".join(self.running)
        line = f"{self.head()}; now {now}" if now else self.head()
        width = os.get_terminal_size(1).columns or 80
        print(f"\r{line[: width - 1]}\x1b[K", end="", flush=True)

    def say_proved(self, crate: Crate) -> None:
        if not self.on_terminal:
            self.say(f"{self.head()}; last {crate.name}")

    def say_not_proved(self, crate: Crate) -> None:
        self.failed = crate.is_lost = True
        crate.line, crate.is_done = None, False
        os.makedirs(crate.out, exist_ok=True)
        with open(f"{crate.out}/check.log", "w", encoding="utf-8") as log:
            log.write(crate.text)
        place = os.path.relpath(f"{crate.out}/check.log", self.root)
        self.say(f"NOT PROVED: {crate.name}; see {place}")
        self.say("\n".join(crate.text.splitlines()[-15:]))

    def start(self, words: list[str], folder: str, name: str = "") -> None:
        """Starts a command whose lines, and None with its status at the end, come as events of this name."""
        child = subprocess.Popen(
            words,
            cwd=folder,
            stdin=subprocess.DEVNULL,
            stdout=subprocess.PIPE,
            stderr=subprocess.STDOUT,
            text=True,
            errors="replace",
            start_new_session=True,
        )
        self.children[name] = child

        def read() -> None:
            for line in child.stdout or ():
                self.events.put((name, line, 0))
            self.events.put((name, None, child.wait()))

        threading.Thread(target=read, daemon=True).start()

    def wait(self) -> Event:
        """Returns the next event, and renews the line meanwhile."""
        while True:
            self.renew()
            try:
                return self.events.get(timeout=0.3)
            except queue.Empty:
                continue

    def work(self) -> None:
        """Checks each crate that isn't proved, once those below it are."""
        self.words, is_shared = rt_words()
        self.make_plan(is_in_turn=not is_shared)
        self.used = {low.name for it in self.crates for low in it.below}
        self.begin_next()
        while self.children:
            name, line, status = self.wait()
            if line is not None:
                self.named[name].text += line
                continue
            del self.children[name], self.running[name]
            self.take(self.named[name], status)
            self.begin_next()

    def begin_next(self) -> None:
        """Begins the checks for which there are processes."""
        while True:
            found = self.plan.next(self.ended(), self.running)
            if found is None:
                return
            name, jobs = found
            self.named[name].text, self.running[name] = "", jobs
            verb = "lib" if name in self.used else "check"
            self.start([*self.words, verb, "--jobs", str(jobs)], f"{self.root}/crates/{name}", name)

    def take(self, crate: Crate, status: int) -> None:
        """Takes what rt said of a crate, once its check has ended."""
        if status == shared_rt.CHANGED or crate.sum_of_files() != crate.own:
            self.was_edited = crate.is_lost = True
        elif status:
            self.say_not_proved(crate)
        else:
            found = [it for it in crate.text.splitlines() if it.startswith("logic=proved ")]
            if found:
                crate.write_mark(found[-1])
            elif not crate.read_mark():
                crate.write_mark("-")
            self.say_proved(crate)

    def run(self) -> bool:
        """Proves what isn't proved, and returns whether every crate is. Ends its checks where it is broken off."""
        kept = len(self.proved())
        if kept:
            print(f"{kept} of {len(self.crates)} crates are proved already and haven't changed", flush=True)
        try:
            if kept < len(self.crates):
                self.work()
        finally:
            self.end()
        if self.on_terminal:
            print("\r\x1b[K", end="")
        for it in self.crates:
            if self.is_above_lost(it):
                print(f"not reached: {it.name}, which uses a crate that isn't proved", flush=True)
        if self.was_edited:
            print("sfq: a source was edited meanwhile: run ./build again", file=sys.stderr)
        return not self.failed and len(self.proved()) == len(self.crates)

    def end(self) -> None:
        """Ends the checks that run still: each is a group of its own, which this run started."""
        # A thread waits for each, and takes what the system says of its end.
        end_groups(self.children.values(), lambda it: it.returncode is not None)


class Verdict(Proving):
    """A run over all crates and their tests that takes nothing from earlier runs, by `rt all verdict`. It leaves no marks: `rt` keeps
    nothing of a verdict that something can be made of."""

    most_jobs = 1

    def processes(self) -> int:
        return processors()

    def take_over(self) -> None:
        pass

    def guess(self) -> None:
        """Notes which crates `rt all` works on now: the first that wait for none."""
        ended = self.ended()
        ready = [it.name for it in self.crates if it.name not in ended and all(low.is_done for low in it.below)]
        self.running = {it: 1 for it in ready[: self.jobs]}

    def work(self) -> None:
        self.start(["rt", "all", "verdict", "--jobs", str(self.jobs)], self.root)
        text: list[str] = []
        line: Optional[str] = ""
        name = ""
        while line is not None:
            self.guess()
            _, line, status = self.wait()
            if line is not None and not line.startswith("== "):
                text.append(line)
                continue
            if name == "summary":
                self.take_summary("".join(text))
            elif name:
                self.take_block(name, "".join(text))
            elif line is None:
                self.say("".join(text[-15:]).rstrip())
            name, text = (line or "").removeprefix("== ").strip(), []
        self.failed = self.failed or status != 0

    def take_block(self, name: str, text: str) -> None:
        """Takes what rt said of a crate, once it is done with it."""
        crate = self.named.get(name)
        if crate is None or crate.is_done:
            return
        crate.text = text
        found = [it for it in text.splitlines() if it.startswith("logic=proved ")]
        if found:
            crate.note(found[-1])
            self.say_proved(crate)

    def take_summary(self, text: str) -> None:
        """Takes the lines that rt closes with: each crate is ok, failed or wasn't run."""
        for name, said in re.findall(r"^(\w+): (ok|failed .*|not run, .*)$", text, re.M):
            crate = self.named.get(name)
            if crate is not None and said.startswith("failed"):
                self.say_not_proved(crate)
            elif crate is not None and said == "ok" and crate.line is None:
                crate.note("-")
