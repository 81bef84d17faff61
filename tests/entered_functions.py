"""Counts how often a program enters functions, and from where. gdb runs this file:

    SFQ_ENTERED=FILE gdb -nx -batch -x tests/entered_functions.py PROGRAM

FILE is JSON: `functions`, the names of the functions to look at; `folder`, where the program runs; `calls`, a list of calls, each a
list of words. Into the file `answers`, named there too, goes for each call its `status`, its `output`, and under `entered` a list of
a function, the function that called it, and how often.
"""
import collections
import json
import os
import shlex

import gdb

ENTERED = collections.Counter()


class Entry(gdb.Breakpoint):
    """Counts the entries into a function, and goes on."""

    def __init__(self, name):
        super().__init__(f"'{name}'", internal=True)
        self.silent = True
        self.function = name

    def stop(self):
        caller = gdb.selected_frame().older()
        ENTERED[self.function, caller.name() if caller else ""] += 1
        return False


def run(words, folder):
    """Runs the program on words, and returns what came of it."""
    ENTERED.clear()
    output = f"{folder}/output"
    gdb.execute(f"run {shlex.join(words)} > {shlex.quote(output)} 2>&1 < /dev/null")
    with open(output, encoding="utf-8", errors="replace") as file:
        text = file.read()
    entered = [[*names, count] for names, count in sorted(ENTERED.items())]
    return {"status": int(gdb.parse_and_eval("$_exitcode")), "output": text, "entered": entered}


def main():
    with open(os.environ["SFQ_ENTERED"], encoding="utf-8") as file:
        asked = json.load(file)
    for it in ("pagination off", "confirm off", "breakpoint pending off", f"cwd {asked['folder']}"):
        gdb.execute(f"set {it}")
    for it in asked["functions"]:
        Entry(it)
    answers = [run(words, asked["folder"]) for words in asked["calls"]]
    with open(asked["answers"], "w", encoding="utf-8") as file:
        json.dump(answers, file)


main()
