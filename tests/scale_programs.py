"""The programs sfq and sfq-tiles for tests: those that ./build and ./build --tiles make, or others that SFQ_PROGRAM and SFQ_TILES name."""
import functools
import os
from typing import Any, Callable, Optional

import support  # finds the modules
import repository
import tiles

SFQ = os.environ.get("SFQ_PROGRAM") or repository.PROGRAM
TILES = os.environ.get("SFQ_TILES") or tiles.PROGRAM


@functools.lru_cache(maxsize=None)
def is_of_present_sources(changed: float) -> bool:
    """Whether sfq-tiles was made of the present sources: looked at once for each time at which the program changed."""
    del changed
    return tiles.is_made()


def has_tiles() -> bool:
    """Whether sfq-tiles is there."""
    return bool(os.environ.get("SFQ_TILES")) or (os.path.isfile(TILES) and is_of_present_sources(os.path.getmtime(TILES)))


def lacks() -> Optional[str]:
    """Returns what has to make a program that isn't there, or None. It is asked when a test runs: a build may come first."""
    if not os.environ.get("SFQ_PROGRAM") and not repository.is_built():
        return "./build"
    return None if has_tiles() else "./build --tiles"


def needs_programs(test: Callable[[Any], None]) -> Callable[[Any], None]:
    """Skips a test where a program isn't there."""

    @functools.wraps(test)
    def run(self: Any) -> None:
        if lacks():
            self.skipTest(f"needs {lacks()}")
        test(self)

    return run
