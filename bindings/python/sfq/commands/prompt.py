"""The prompt of sfq-shell: its lines by readline where that is there, completion of names, and the file of what was typed."""
from __future__ import annotations

import glob
import os
from typing import Any, Optional

from ..tables import rules, statements
from . import places, showing

try:
    import readline as _readline

    READLINE: Any = _readline
except ImportError:
    READLINE = None

FIRST, MORE, IN_STRING = "sfq> ", "  -> ", "  '> "
# How many lines the file of what was typed keeps.
KEPT = 1_000
# The functions, and the words that aren't names.
FUNCTIONS = (
    "ST_AsText", "ST_Contains", "ST_Crosses", "ST_Dimension", "ST_Disjoint", "ST_Equals", "ST_GeomFromText", "ST_Intersects", "ST_IsEmpty",
    "ST_Overlaps", "ST_Relate", "ST_Touches", "ST_Within",
)
WORDS = sorted([*(it.upper() for it in rules.RESERVED), "EXPLAIN", "ANALYZE", "COUNT(*)"])


def history_file() -> Optional[str]:
    """Returns the path of the file of what was typed, None where the user has no folder."""
    try:
        return os.path.join(places.of_user("XDG_STATE_HOME", ".local/state"), "sfq", "shell-history")
    except OSError:
        return None


class Completer:
    """What a word may go on as."""

    def __init__(self, tables: list[statements.Table], commands: list[str]) -> None:
        self.tables, self.commands = tables, commands

    def of(self, before: str, word: str) -> list[str]:
        """Returns what the word may go on as, behind the text before it."""
        line = before.rpartition("\n")[2].lstrip()
        command = line.split(" ")[0] if line.startswith(".") else ""
        if not before.strip() and word.startswith("."):
            return [it for it in self.commands if it.startswith(word)]
        if command in (".read", ".output"):
            return [f"{it}/" if os.path.isdir(it) else it for it in sorted(glob.glob(f"{glob.escape(word)}*"))]
        if command in (".mode", ".timer", ".schema", ".load"):
            own = {".mode": list(showing.MODES), ".timer": ["on", "off"]}.get(command) or [it.name for it in self.tables]
            return [it for it in own if it.lower().startswith(word.lower())]
        return self.in_query(before, word) if command in ("", ".plan", ".work") else []

    def in_query(self, before: str, word: str) -> list[str]:
        """Returns the names that begin so: behind a point the columns of its table, and the reserved words in the case of the word."""
        table, point, begin = word.rpartition(".")
        if point:
            named = statements.mentioned(before + " " + READLINE.get_line_buffer() if READLINE else before, self.tables)
            asked = [named[table.lower()]] if table.lower() in named else [it for it in self.tables if it.name.lower() == table.lower()]
            return [f"{table}.{name}" for it in asked for name, _ in it.columns if name.lower().startswith(begin.lower())]
        columns = [name for it in self.tables for name, _ in it.columns]
        names = dict.fromkeys([*(it.name for it in self.tables), *columns, *(f"{it}(" for it in FUNCTIONS)])
        words = [it.lower() if word[:1].islower() else it for it in WORDS]
        return [it for it in [*names, *words] if it.lower().startswith(word.lower())]


def joined(lines: list[str]) -> list[str]:
    """Returns the lines of a query as one; as they are where a comment ends with its line, or a string goes on in the next one."""
    if any("--" in it or it.count("'") % 2 for it in lines):
        return lines
    return [" ".join(it.strip() for it in lines)]


class Session:
    """The lines that a user types."""

    def __init__(self, tables: list[statements.Table], commands: list[str], history: Optional[str]) -> None:
        self.completer, self.history, self.begun = Completer(tables, commands), history, ""
        self.typed: list[str] = []
        self.found: list[str] = []
        if READLINE:
            self.prepare()

    def prepare(self) -> None:
        """Has readline complete names, and know what was typed before."""
        READLINE.set_completer(self.complete)
        READLINE.set_completer_delims(" \t\n,()<>=!;'\"")
        READLINE.parse_and_bind("bind ^I rl_complete" if "libedit" in (READLINE.__doc__ or "") else "tab: complete")
        READLINE.set_auto_history(False)
        READLINE.set_history_length(KEPT)
        try:
            if self.history:
                READLINE.read_history_file(self.history)
        except OSError:
            # It isn't there yet.
            pass
        self.known = READLINE.get_current_history_length()

    def complete(self, word: str, number: int) -> Optional[str]:
        """Returns one of the words that this one may go on as, by its number; None behind the last."""
        if number == 0:
            self.found = self.completer.of(self.begun + READLINE.get_line_buffer()[: READLINE.get_begidx()], word)
            if len(self.found) == 1 and self.found[0][-1] not in "(/":
                self.found[0] += " "
        return self.found[number] if number < len(self.found) else None

    def line(self, splitter: statements.Splitter) -> str:
        """Returns the next line. EOFError at the end, KeyboardInterrupt where the user gave it up."""
        if not splitter.is_begun:
            self.typed = []
        self.begun = "".join(f"{it}\n" for it in self.typed)
        return input(IN_STRING if splitter.is_in_string else MORE if splitter.is_begun else FIRST)

    def note(self, line: str, is_begun: bool) -> None:
        """Keeps a line, and once a query has ended its lines as one, to be called up again."""
        self.typed.append(line)
        if READLINE and not is_begun and any(it.strip() for it in self.typed):
            for it in joined(self.typed):
                READLINE.add_history(it)

    def close(self) -> None:
        """Adds what was typed to the file, which only the user can read."""
        if not READLINE or not self.history:
            return
        try:
            os.makedirs(os.path.dirname(self.history), 0o700, exist_ok=True)
            os.close(os.open(self.history, os.O_CREAT | os.O_WRONLY, 0o600))
            READLINE.append_history_file(READLINE.get_current_history_length() - self.known, self.history)
        except OSError:
            # What can't be kept is forgotten.
            pass
