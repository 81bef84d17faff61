"""What a run of the prover costs: its processor time, and that as a multiple of two proofs within the same run.

A machine may be two or three times as slow on one day as on another. The multiple hardly depends on that, so figures of different
days can be compared by it.
"""
import os
import resource
import threading

# The crates whose proofs are the yardstick.
YARDSTICK = ("fraction", "orient")
# How often processes are looked at, in seconds.
PAUSE = 0.2
TICKS = os.sysconf("SC_CLK_TCK")


def proved_crate(words: list[str]) -> str:
    """Returns the library that a command proves from nothing, or an empty text."""
    if len(words) < 2 or os.path.basename(words[0]) != "rattle" or words[1] != "build" or "--crate-name" not in words[:-1]:
        return ""
    return words[words.index("--crate-name") + 1]


def seconds_in(stat: str) -> float:
    """Returns the processor seconds in a text of /proc/PID/stat: those of the process and of those that it waited for."""
    return sum(int(it) for it in stat[stat.rindex(")") + 2 :].split()[11:15]) / TICKS


class Cost:
    """Watches the processes that run while it is open."""

    def __init__(self) -> None:
        self.proofs: dict[str, dict[str, float]] = {it: {} for it in YARDSTICK}
        self.seconds = 0.0
        self.is_over = threading.Event()
        self.thread = threading.Thread(target=self.watch, daemon=True)

    def __enter__(self) -> "Cost":
        self.begun = self.of_children()
        self.thread.start()
        return self

    def __exit__(self, *_: object) -> None:
        self.is_over.set()
        self.thread.join()
        self.seconds = self.of_children() - self.begun

    def of_children(self) -> float:
        used = resource.getrusage(resource.RUSAGE_CHILDREN)
        return used.ru_utime + used.ru_stime

    def watch(self) -> None:
        while not self.is_over.wait(PAUSE):
            self.look()

    def look(self, folder: str = "/proc") -> None:
        """Notes what the proofs of the yardstick have taken so far."""
        for process in os.listdir(folder):
            if not process.isdigit():
                continue
            try:
                with open(f"{folder}/{process}/cmdline", encoding="utf-8", errors="replace") as text:
                    crate = proved_crate(text.read().split("\0"))
                if crate in self.proofs:
                    with open(f"{folder}/{process}/stat", encoding="utf-8", errors="replace") as text:
                        self.proofs[crate][process] = seconds_in(text.read())
            except (OSError, ValueError):
                # It has ended meanwhile.
                pass

    def line(self) -> str:
        """Returns what the run took, as a line."""
        each = [sum(it.values()) for it in self.proofs.values()]
        minutes = f"{self.seconds / 60:.1f} processor minutes"
        names = " and ".join(YARDSTICK)
        if not all(each):
            return f"{minutes}; not all of {names} was proved"
        return f"{minutes}, {self.seconds / sum(each):.0f} times the proofs of {names}, {sum(each):.0f} processor seconds"
