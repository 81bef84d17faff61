"""In which order crates are proved: each crate once those below it are, and first the one with the longest chain of lines from it up."""
from typing import Optional

# More processes than this for one crate gain little.
MOST_JOBS = 4
# The lines that a check of no code would take as long as.
LINES_OF_ANY = 125


class Plan:
    """The order of crates: `below` has those that each crate uses, and `lines` how many lines of code each one has. At one time there
    are at most so many processes, so many crates, and so many processes for one crate."""

    def __init__(
        self, below: dict[str, list[str]], lines: dict[str, int], processes: int, crates: int, most_jobs: int = MOST_JOBS
    ) -> None:
        self.below, self.processes, self.crates, self.most_jobs = below, processes, crates, most_jobs
        self.chain: dict[str, int] = {}
        above: dict[str, list[str]] = {it: [] for it in below}
        for name, used in below.items():
            for it in used:
                above[it].append(name)

        def measure(name: str) -> int:
            if name not in self.chain:
                self.chain[name] = LINES_OF_ANY + lines[name] + max(map(measure, above[name]), default=0)
            return self.chain[name]

        for it in below:
            measure(it)

    def next(self, done: set[str], running: dict[str, int]) -> Optional[tuple[str, int]]:
        """Returns the crate to begin now and how many processes it gets, or None. `done` has the crates that are proved or can't be, and
        `running` those that are checked, each with its processes."""
        idle, free = self.processes - sum(running.values()), self.crates - len(running)
        if idle < 1 or free < 1:
            return None
        left = [it for it in self.below if it not in done and it not in running and done.issuperset(self.below[it])]
        if not left:
            return None
        return max(left, key=lambda it: self.chain[it]), min(self.most_jobs, -(-idle // min(len(left), free)))
