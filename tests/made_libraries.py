"""Tests whose commands call the C libraries."""
import unittest

from support import Tested

import library


def over_library(case: Tested) -> Tested:
    """Marks a class of tests whose commands call the C libraries: it is skipped where these aren't made, and the gate runs it once they are."""
    setattr(case, "ASKS_LIBRARY", True)
    return unittest.skipUnless(library.are_made(), "needs ./build --library")(case)
