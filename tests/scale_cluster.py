"""A Dask cluster of a test's own: a scheduler and workers, each a process, on this machine's loopback."""
import os
import re
import signal
import subprocess
import tempfile
import time
from typing import Mapping, Optional, Sequence

# Debian's, for which python3-distributed is made.
PYTHON = "/usr/bin/python3"
# How long a process may take to start on a busy machine, in seconds.
PATIENCE = 120


def environment(more: Mapping[str, str] = {}) -> dict[str, str]:
    """Returns the environment for Debian's Python, which must not see this repository's modules."""
    return {**{name: value for name, value in os.environ.items() if name != "PYTHONPATH"}, **dict(more)}


def lacks() -> Optional[str]:
    """Returns the package that a cluster needs and that isn't here, or None."""
    if not os.path.isfile(PYTHON):
        return "python3"
    words = [PYTHON, "-c", "import distributed, cloudpickle"]
    ran = subprocess.run(words, stdout=subprocess.DEVNULL, stderr=subprocess.DEVNULL, env=environment())
    return "python3-distributed" if ran.returncode else None


class Process(subprocess.Popen[bytes]):
    """A process of the cluster, and the path of what it logs."""

    log: str


class Cluster:
    """A running cluster. `workers` are its workers' processes, oldest first."""

    def __init__(self, workers: int = 2, threads: int = 1, environments: Sequence[Mapping[str, str]] = ()) -> None:
        self.room = tempfile.mkdtemp(prefix="sfq-cluster-")
        self.workers: list[Process] = []
        self.threads, self.started = threads, 0
        self.scheduler = self.start("distributed.cli.dask_scheduler", ["--host", "127.0.0.1", "--port", "0", "--no-dashboard"])
        self.address = self.said(self.scheduler, r"Scheduler at:\s+(tcp://\S+)")
        for it in environments or [{}] * workers:
            self.add(it)

    def start(self, module: str, words: Sequence[str], more: Mapping[str, str] = {}) -> Process:
        self.started += 1
        path = f"{self.room}/log-{self.started}"
        with open(path, "wb") as log:
            made = Process(
                [PYTHON, "-m", module, *words], cwd=self.room, stdin=subprocess.DEVNULL, stdout=log, stderr=log,
                env=environment({"TMPDIR": self.room, **dict(more)}),
            )
        made.log = path
        return made

    def said(self, process: Process, pattern: str) -> str:
        """Waits until a process has logged what matches, and returns its group."""
        begun = time.monotonic()
        while time.monotonic() - begun < PATIENCE and process.poll() is None:
            with open(process.log, encoding="utf-8", errors="replace") as log:
                found = re.search(pattern, log.read())
            if found:
                return str(found[1])
            time.sleep(0.1)
        with open(process.log, encoding="utf-8", errors="replace") as log:
            raise RuntimeError(log.read())

    def add(self, more: Mapping[str, str] = {}) -> Process:
        """Starts a worker more, with more in its environment, and returns its process when it works."""
        words = [self.address, "--no-nanny", "--nthreads", str(self.threads), "--no-dashboard", "--local-directory", f"{self.room}/{self.started}"]
        made = self.start("distributed.cli.dask_worker", words, more)
        self.said(made, r"(Registered) to:")
        self.workers.append(made)
        return made

    def seconds(self) -> float:
        """Returns the processor time that the scheduler and the workers have taken, without what they started."""
        found = 0
        for it in [self.scheduler, *self.workers]:
            with open(f"/proc/{it.pid}/stat", encoding="utf-8") as file:
                found += sum(map(int, file.read().rpartition(")")[2].split()[11:13]))
        return found / os.sysconf("SC_CLK_TCK")

    def kill(self, process: Process) -> None:
        """Kills a process of the cluster, as a fault of its machine would."""
        process.send_signal(signal.SIGKILL)
        process.wait()
        if process in self.workers:
            self.workers.remove(process)

    def stop(self) -> None:
        """Ends all processes, and removes the folder."""
        for it in [*self.workers, self.scheduler]:
            if it.poll() is None:
                it.kill()
        for it in [*self.workers, self.scheduler]:
            it.wait()
        subprocess.run(["rm", "-rf", self.room], check=False)
