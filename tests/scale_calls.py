#!/usr/bin/python3
"""Makes many calls of sfq-scale in one process, so that Dask is loaded once. test_scale runs it.

It reads from standard input, as JSON, `before`, a piece of Python that is run first, and `calls`, a list of lists of words.
It prints, as JSON, what each wrote on its two streams, as Latin-1, and its status.
"""
import json
import os
import runpy
import sys
import tempfile
from typing import Any

ROOT = os.path.dirname(os.path.dirname(os.path.realpath(__file__)))
runpy.run_path(f"{ROOT}/tools/paths.py")

from sfq_scale import command


def call(words: list[str]) -> list[Any]:
    """Makes one call, and returns what it wrote and its status."""
    with tempfile.TemporaryFile() as out, tempfile.TemporaryFile() as err:
        kept = os.dup(1), os.dup(2)
        try:
            for number, it in ((1, out), (2, err)):
                os.dup2(it.fileno(), number)
            try:
                status: Any = command.answer(command.read_words(words))
            except SystemExit as end:
                status = end.code
        finally:
            sys.stdout.flush()
            sys.stderr.flush()
            for number, old in zip((1, 2), kept):
                os.dup2(old, number)
                os.close(old)
        texts = []
        for it in (out, err):
            it.seek(0)
            texts.append(it.read().decode("latin-1"))
        return [*texts, status]


def main() -> None:
    given = json.load(sys.stdin)
    exec(given["before"], {})
    found = [call(it) for it in given["calls"]]
    print(json.dumps(found), flush=True)
    os._exit(0)


if __name__ == "__main__":
    main()
