"""How messages count things: one thing has the singular."""
from __future__ import annotations


def number_of(number: int, one: str, several: str = "") -> str:
    """Returns a number with what is counted: `1 record`, `2 records`. `several` has the words for any other number than one, where that isn't `one`
    with an s behind it."""
    return f"{number:,} {one if number == 1 else several or f'{one}s'}"
