"""Which of many boxes meet another, by a tree of boxes around boxes. None of it is proved, and nothing is rounded."""
from __future__ import annotations

import ctypes
import math
from typing import Any, Callable, Iterator, Sequence, Union

from ..geometry import library

# The least x, the greatest x, the least y and the greatest y.
Box = tuple[Any, Any, Any, Any]
# How many boxes have one around them.
EACH = 12


def around(boxes: Sequence[Box]) -> Box:
    """Returns the least box around boxes, of which there is one at least."""
    return min(it[0] for it in boxes), max(it[1] for it in boxes), min(it[2] for it in boxes), max(it[3] for it in boxes)


class Tree:
    """Boxes, of which it finds those that share a point with a window."""

    def __init__(self, boxes: Sequence[Box]) -> None:
        """Sorts boxes into columns by x, and those of a column by y, so that neighbours have a small box around them."""
        places = sorted(range(len(boxes)), key=lambda it: float(boxes[it][0] + boxes[it][1]))
        size = EACH * max(1, math.isqrt(max(1, len(boxes) // EACH)))
        order = [it for at in range(0, len(places), size) for it in sorted(places[at:at + size], key=lambda it: float(boxes[it][2] + boxes[it][3]))]
        # Each node has its box, and its nodes; the lowest have places in their stead.
        nodes: list[tuple[Box, Any]] = [(boxes[it], it) for it in order]
        self.depth = 0
        while len(nodes) > EACH:
            parts = [nodes[at:at + EACH] for at in range(0, len(nodes), EACH)]
            nodes = [(around([it[0] for it in part]), part) for part in parts]
            self.depth += 1
        self.top = nodes

    def meeting(self, window: Box) -> list[int]:
        """Returns the places of the boxes that share a point with a window, in no order."""
        left, right, low, high = window
        nodes = self.top
        for _ in range(self.depth):
            nodes = [it for (a, b, c, d), part in nodes if a <= right and b >= left and c <= high and d >= low for it in part]
        return [it for (a, b, c, d), it in nodes if a <= right and b >= left and c <= high and d >= low]


class LibraryTree:
    """Boxes of whole numbers up to 10,000,000 either way, in an index of the library."""

    def __init__(self, boxes: Sequence[Box]) -> None:
        """Makes the index."""
        self.index = library.KeptIndex((ctypes.c_int32 * (4 * len(boxes)))(*(it for box in boxes for it in box)), len(boxes))

    def meeting(self, window: Box) -> list[int]:
        """Returns the places of the boxes that share a point with a window."""
        return self.index.search((ctypes.c_int32 * 4)(*window))


# What makes a tree of boxes.
Maker = Callable[[Sequence[Box]], Union[Tree, LibraryTree]]


def pairs(first: Sequence[Box], second: Sequence[Box], maker: Maker = Tree) -> Iterator[tuple[int, list[int]]]:
    """Yields for each place of the first boxes those of the second ones that meet it, ascending, where there are any."""
    tree = maker(second)
    for at, box in enumerate(first):
        found = tree.meeting(box)
        if found:
            yield at, sorted(found)


def pairs_within(boxes: Sequence[Box], maker: Maker = Tree) -> Iterator[tuple[int, list[int]]]:
    """Yields for each place those after it whose boxes meet its own, where there are any."""
    for at, found in pairs(boxes, boxes, maker):
        behind = [it for it in found if it > at]
        if behind:
            yield at, behind
