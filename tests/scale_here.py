"""A stand-in for the cluster of sfq-scale: the parts run here, one after another, without Dask."""
import os
import tempfile

from sfq_scale import cluster, tasks


class Here:
    """Has what `cluster.Cluster` has, as far as queries need it."""

    name = "here"

    def __init__(self, address, most):
        del address, most

    def close(self):
        pass

    def check(self, program, wanted, room):
        if tasks.look(program, wanted, room):
            raise AssertionError(tasks.look(program, wanted, room))

    def share(self, program):
        """Returns a file with the program."""
        handle, path = tempfile.mkstemp()
        with open(handle, "wb") as file:
            file.write(program)
        os.chmod(path, 0o700)
        return path

    def outcomes(self, jobs, call):
        """Yields each run with its outcome, the last one first."""
        for job in reversed(jobs):
            status, err, output, seconds, own = tasks.run(*call(job))
            if status:
                raise AssertionError(f"{job.name}: status {status}: {err}")
            yield job, (output, seconds, own)


def take():
    """Takes the stand-in in place of the cluster."""
    cluster.Cluster = Here
    tasks.other_program = lambda path, wanted: None if os.path.isfile(path) and wanted else path
