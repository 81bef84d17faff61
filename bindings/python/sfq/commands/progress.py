"""The line on standard error that says how far a command is."""
from __future__ import annotations

import sys
import time

# How often the line changes on a terminal, and how often there is one elsewhere, in seconds.
EACH, EACH_ELSEWHERE = 0.1, 1.0


class Progress:
    """On a terminal one line that changes; elsewhere lines, if they are asked for. The first comes after some seconds."""

    def __init__(self, name: str, wait: float = 0.0, is_asked: bool = False) -> None:
        self.name, self.is_terminal = name, sys.stderr.isatty()
        self.is_on, self.is_shown = self.is_terminal or is_asked, False
        self.due = time.monotonic() + wait

    def show(self, text: str, is_last: bool = False) -> None:
        """Says it, unless the line before it is too young; the last one is always said."""
        now = time.monotonic()
        if not self.is_on or (now < self.due and not is_last):
            return
        self.due, self.is_shown = now + (EACH if self.is_terminal else EACH_ELSEWHERE), True
        line = f"\r{self.name}: {text}\x1b[K" if self.is_terminal else f"{self.name}: {text}\n"
        print(line, end="", file=sys.stderr, flush=True)

    def clear(self) -> None:
        """Removes the line from the terminal."""
        if self.is_terminal and self.is_shown:
            print("\r\x1b[K", end="", file=sys.stderr, flush=True)
            self.is_shown = False
