"""The grid of a run: a step and an origin that take all positions of the layers, proposed where they aren't given. None of it is proved."""
from __future__ import annotations

from typing import Optional

from sfq.geometry import grids
from sfq.layers import proposing


class NoFit(ValueError):
    """The grid that was asked for doesn't take all positions. The text says which one does."""


def parts_of(origin: str) -> Optional[tuple[str, str]]:
    """Returns the two numbers of an origin, None of an empty text. ValueError of another one."""
    if not origin.strip():
        return None
    parts = [it.strip() for it in origin.split(",")]
    if len(parts) != 2:
        raise ValueError(f"the origin {origin!r} isn't X,Y")
    return parts[0], parts[1]


def check(step: str, origin: str) -> None:
    """ValueError where the step or the origin isn't one. Both may be empty."""
    grids.Grid(step.strip() or "1", parts_of(origin) or ("0", "0"))


def chosen(
    extent: Optional[proposing.Extent], metres: Optional[float], step: str, origin: str, decimals: Optional[proposing.Decimals] = None,
) -> grids.Grid:
    """Returns the grid of the step and the origin, each proposed where it is empty, in a unit of so many metres.

    `decimals` are those of all coordinates. NoFit where it doesn't take all positions.
    """
    step, given = step.strip(), parts_of(origin)
    grid = proposing.proposed(extent, metres, step, ",".join(given or ()), decimals)
    if extent is None or proposing.fits(extent, grid):
        return grid
    where = f"x goes from {extent.left:.10g} to {extent.right:.10g}, y from {extent.low:.10g} to {extent.high:.10g}"
    raise NoFit(f"a grid with the step {step} and the origin {','.join(grid.spelled[1])} doesn't take all positions: {where}; "
                + remedy(extent, metres, step))


def remedy(extent: proposing.Extent, metres: Optional[float], step: str) -> str:
    """Returns what does take an extent: an origin for this step, or where none does, a step."""
    same = proposing.proposed(extent, metres, step)
    if proposing.fits(extent, same):
        return f"the origin {','.join(same.spelled[1])} does"
    larger = proposing.proposed(extent, metres)
    return f"no origin does with this step: the step {larger.spelled[0]} with the origin {','.join(larger.spelled[1])} does"
