"""What sfq says of many texts of geometries, by the library libsfq: the reasons of the command `sfq why`."""
from __future__ import annotations

import ctypes
from typing import Optional

from ..geometry import library
from ..geometry.shapes import Geometry
from ..layers import meeting


class Asked:
    """The text of a geometry on the grid, and what the library keeps of it."""

    __slots__ = ("text", "kept")

    def __init__(self, text: str) -> None:
        self.text = text
        self.kept: Optional[library.Kept] = None

    def read(self) -> library.Kept:
        """Returns what the library keeps of it, read when it is first asked."""
        if self.kept is None:
            self.kept = library.Kept(self.text)
        return self.kept


class Checker:
    """Checks texts. LibraryError, which names the command that builds the library, if it isn't there."""

    # The index by which relations are compared.
    TREE = meeting.LibraryTree

    def __init__(self) -> None:
        self.call = library.library().sfq_check

    def reasons(self, texts: list[str]) -> list[Optional[str]]:
        """Returns the reason of each text that is refused, None for the others."""
        call, fault, found = self.call, ctypes.byref(library.CFault()), []
        for text in texts:
            given = text.encode()
            found.append(Geometry(text).reason if library.is_refused(call(given, len(given), fault)) else None)
        return found

    def matrices(self, pairs: list[tuple[Asked, Asked]]) -> list[str]:
        """Returns the matrix of each pair."""
        return library.relate_many([(one.read(), other.read()) for one, other in pairs])

    def reason(self, text: str) -> str:
        """Returns why a text is refused."""
        return Geometry(text).reason
