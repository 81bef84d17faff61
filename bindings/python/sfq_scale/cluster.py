"""The workers of a Dask cluster, which run the parts of a query."""
import asyncio
import collections
import concurrent.futures
import contextlib
import logging
import pickle
import queue
import time
import uuid
import warnings
from typing import Any, Callable, Iterable, Iterator, Union

from . import tasks
from .faults import CLUSTER, FILES, MEMORY, Ended, ended
from .plans import Job

# The output of a run, or its path and size, and the seconds of processor that sfq took, and that the worker took.
Taken = tuple[Union[bytes, tuple[str, int]], float, float]
# How often a run that the system refused something is tried again, and after how many seconds without news the cluster is looked at.
RETRIES, PATIENCE = 2, 1.0
# So many runs wait for each thread of a worker.
AHEAD = 3


def library() -> Any:
    """Returns Dask's library, which then keeps its notes off standard error."""
    try:
        import cloudpickle
        import distributed
    except ImportError as error:
        raise ended(CLUSTER, f"needs Debian's package python3-distributed, or the like: {error}") from error
    logging.getLogger("distributed").setLevel(logging.CRITICAL)
    logging.getLogger("asyncio").setLevel(logging.CRITICAL)
    logging.getLogger("tornado").setLevel(logging.CRITICAL)
    warnings.filterwarnings("ignore", message="(?s).*(Large object|Sending large graph)")
    cloudpickle.register_pickle_by_value(tasks)
    return distributed


def faults(distributed: Any) -> tuple[type[Exception], ...]:
    """Returns what Dask's calls raise where the cluster, or the connection with it, fails.

    A connection that is closed is an OSError, a client that is closed or whose scheduler is gone an OSError or a RuntimeError, and an
    answer that isn't whole a ValueError or an EOFError. asyncio and concurrent.futures have a TimeoutError of their own each, as has
    Python before 3.11.
    """
    timeouts = (TimeoutError, asyncio.TimeoutError, concurrent.futures.TimeoutError, distributed.TimeoutError)
    return (OSError, RuntimeError, ValueError, EOFError, pickle.UnpicklingError, *timeouts, distributed.CancelledError)


class Cluster:
    """A connection with a scheduler. `most` is for how many seconds it waits for a first worker, or for a new one."""

    def __init__(self, address: str, most: float) -> None:
        self.address, self.most = address, most
        self.name = uuid.uuid4().hex[:12]
        distributed = library()
        self.faults = faults(distributed)
        try:
            self.client = distributed.Client(address, timeout=most, set_as_default=False)
        except self.faults as error:
            raise ended(CLUSTER, f"no scheduler answers at {address}: {' '.join(str(error).split()) or 'it took too long'}") from error
        self.wait_for_workers()

    def close(self) -> None:
        # It may be gone.
        with contextlib.suppress(*self.faults):
            self.client.close(timeout=2)

    def threads(self) -> int:
        """Returns how many threads the workers have together; none where the scheduler doesn't say."""
        with contextlib.suppress(KeyError, *self.faults):
            return sum(it["nthreads"] for it in self.client.scheduler_info()["workers"].values())
        return 0

    def wait_for_workers(self) -> None:
        """Waits until there is a worker."""
        begun = time.monotonic()
        while not self.threads():
            if time.monotonic() - begun > self.most:
                raise ended(CLUSTER, f"the cluster at {self.address} has had no worker for {self.most:g} seconds")
            time.sleep(0.2)

    def check(self, program: str, wanted: str, room: str) -> None:
        """Asks each worker whether it has the same program and sees the folder."""
        try:
            found = self.client.run(tasks.look, program, wanted, room, on_error="return")
        except self.faults as error:
            raise ended(CLUSTER, f"the workers can't be asked: {error}") from error
        for worker, said in sorted(found.items()):
            if said:
                raise ended(CLUSTER, f"worker {worker}: {said}")

    def share(self, program: bytes) -> Any:
        """Sends the program to the cluster, and returns what means it in the arguments of runs."""
        return self.client.submit(tasks.given, program, key=f"sfq-program-{self.name}", pure=False)

    def outcomes(self, jobs: Iterable[Job], call: Callable[[Job], tuple[Any, ...]]) -> Iterator[tuple[Job, Taken]]:
        """Yields each run with its outcome, as they come. `call` gives the arguments of a run."""
        waiting = collections.deque(jobs)
        running: dict[str, tuple[Any, Job]] = {}
        ready: queue.SimpleQueue[Any] = queue.SimpleQueue()
        try:
            threads = self.threads()
            while waiting or running:
                while waiting and len(running) < AHEAD * max(threads, 1):
                    job = waiting.popleft()
                    key = f"sfq-{self.name}-{job.name.replace(' ', '-')}"
                    future = self.submit(call(job), key)
                    running[future.key] = future, job
                    future.add_done_callback(ready.put)
                try:
                    future = ready.get(timeout=PATIENCE)
                except queue.Empty:
                    self.wait_for_workers()
                    threads = self.threads()
                    continue
                _, job = running.pop(future.key)
                yield job, self.outcome(future, job)
                future.release()
        finally:
            for future, _ in running.values():
                future.release()

    def submit(self, arguments: tuple[Any, ...], key: str) -> Any:
        """Has a run wait for a worker."""
        try:
            return self.client.submit(tasks.run, *arguments, key=key, retries=RETRIES, pure=False)
        except Exception as error:
            # Where its connection is closed, Dask raises Exception itself.
            if type(error) is not Exception and not isinstance(error, self.faults):
                raise
            raise ended(CLUSTER, f"the scheduler at {self.address} takes no run: {error}") from error

    def outcome(self, future: Any, job: Job) -> Taken:
        """Returns the outcome of a run that is done."""
        if future.status == "finished":
            try:
                status, err, output, seconds, own = future.result(timeout=self.most)
            except self.faults as error:
                raise ended(CLUSTER, f"{job.name}: its answer can't be fetched: {error}") from error
            if status == "other":
                raise ended(CLUSTER, f"a worker at {job.name}: {err.decode(errors='replace')}")
            if status:
                raise ended(CLUSTER, f"{job.name}: sfq ended with status {status}: {err.decode(errors='replace').strip()}")
            return output, seconds, own
        if future.status == "error":
            raise self.failure(future.exception(timeout=self.most), job)
        raise ended(CLUSTER, f"the scheduler at {self.address} is gone")

    def failure(self, error: BaseException, job: Job) -> Ended:
        """Returns the end for a run that failed whenever it was tried."""
        if isinstance(error, RuntimeError) and len(error.args) == 2:
            status, err = error.args
            if status in (FILES, MEMORY):
                return Ended(status, err)
            return ended(CLUSTER, f"{job.name}: signal {-status} ended sfq, {RETRIES + 1} times")
        return ended(CLUSTER, f"{job.name}: {type(error).__name__}: {' '.join(str(error).split())}")
