"""`why` of Python: what is large is made in a process of its own, whose memory is bounded and which Ctrl-C ends."""
import ctypes
import os
import resource
import struct
import subprocess
import sys
import textwrap
import unittest
from unittest import mock

import support
from support import ROOT

import engine_rows
import library
import sfq
import test_databases_python as databases
from sfq.geometry import apart, binary, library as border

HEAD = """
    import ctypes, os, sys, time
    import sfq
    from sfq.geometry import apart

    def comb(count, turned):
        # A polygon with so many teeth, which go up, or to the right.
        ring = [it for at in range(count) for it in ((4 * at, 0), (4 * at + 2, 4 * count))]
        ring = [*ring, (4 * count, 0), (4 * count, -4), (-4, -4), (-4, 0), ring[0]]
        ring = [(y, x) if turned else (x, y) for x, y in ring]
        return sfq.Geometry("POLYGON((" + ",".join(f"{x} {y}" for x, y in ring) + "))")

    def children():
        # Returns whether this process has a child that nobody waited for.
        try:
            return os.waitpid(-1, os.WNOHANG) is not None
        except ChildProcessError:
            return False
"""


def interrupted(text):
    return databases.interrupted(textwrap.dedent(HEAD) + textwrap.dedent(text))


class Processes(unittest.TestCase):
    """A text that a process of its own makes, without a library."""

    def test_a_text_comes_back(self):
        for text in ("", "a\n" * 9, "\u00e9" * 300_000):
            self.assertEqual(apart.text_of(lambda text=text: text, 1 << 28), text)

    def test_memory_is_bounded(self):
        """Whoever asks for more has a MemoryError, and the limit of this process stays as it is."""
        before = resource.getrlimit(resource.RLIMIT_AS)
        self.assertEqual(apart.text_of(lambda: str(len(bytearray(1 << 27))), 1 << 28), str(1 << 27))
        with self.assertRaisesRegex(MemoryError, "out of memory"):
            apart.text_of(lambda: str(len(bytearray(1 << 29))), 1 << 28)
        self.assertEqual(resource.getrlimit(resource.RLIMIT_AS), before)

    def test_a_process_that_is_killed(self):
        with self.assertRaises(MemoryError):
            apart.text_of(lambda: str(os.kill(os.getpid(), 9)), 1 << 28)

    def test_ctrl_c_ends_a_call_of_c(self):
        """The call sees no signal; its process is ended, and waited for."""
        self.assertEqual(interrupted("""
            interrupt_sleeper(lambda: apart.text_of(lambda: str(ctypes.PyDLL(None).sleep(60)), 1 << 28))
            print(children())
        """), ("interrupted\nFalse\n", ""))

    def test_rows_of_frames_are_made_apart_as_well(self):
        """Where they are large. The lines are here the number of the process that makes them."""
        one, two = (border.CGeometry(), border.CGeometry())
        with mock.patch.object(border, "lines_of_why", lambda *_: str(os.getpid())):
            for most_pairs, is_here in ((border.MANY_PAIRS - 1, True), (border.MANY_PAIRS, False)):
                found = border.why_addresses(ctypes.addressof(one), ctypes.addressof(two), most_pairs)
                self.assertEqual(found == str(os.getpid()), is_here)

    def test_positions_of_well_known_binary(self):
        """Of a ring of five there may be five, of a point one."""
        point = struct.pack("<BIdd", 1, 1, 1, 2)
        ring = struct.pack("<BIII10d", 1, 3, 1, 5, *range(10))
        self.assertEqual([binary.most_positions(it) for it in (point, ring)], [1, 5])

    def test_what_is_small_stays_in_this_process(self):
        self.assertEqual([sfq.Geometry(it)._kept.most_positions() for it in ("POINT(1 1)", "LINESTRING(0 0,1 1,2 2)")], [1, 3])
        self.assertLess(2 * 2 * 2_048 * border.MANY_PAIRS, 1 << 28)


class OverLibrary(engine_rows.WithLibrary):
    """Combs, of which each tooth of one crosses each of the other."""

    def ran(self, text, python=sys.executable):
        known = {**os.environ, "PYTHONPATH": f"{ROOT}/bindings/python:{ROOT}/tests", "PYTHONDONTWRITEBYTECODE": "1", "SFQ_LIBRARY": library.SHARED}
        found = subprocess.run([python, "-c", textwrap.dedent(HEAD) + textwrap.dedent(text)], env=known, capture_output=True, text=True)
        return found.stdout + found.stderr

    def test_the_cells_are_the_same(self):
        self.assertEqual(self.ran("""
            from sfq.geometry import library
            one, other = comb(60, False), comb(60, True)
            apart = one.why(other)
            library.MANY_PAIRS = 10**12
            print(apart == one.why(other), "".join(it.dimension for it in apart) == one.relate(other), children())
        """), "True True False\n")

    def test_memory_of_combs(self):
        self.assertEqual(self.ran("""
            import resource
            from sfq.geometry import library
            library.WHY_BYTES = 1 << 26
            try:
                comb(900, False).why(comb(900, True))
            except MemoryError as error:
                print(error, resource.getrusage(resource.RUSAGE_CHILDREN).ru_maxrss < 300_000)
        """), "sfq: out of memory True\n")

    def test_memory_of_rows_of_frames(self):
        if not support.python_with("geopandas"):
            self.skipTest("needs the package python3-geopandas")
        self.assertEqual(self.ran("""
            import resource
            import geopandas, sfq.geopandas
            from sfq.geometry import library
            library.WHY_BYTES = 1 << 26
            one, other = (geopandas.GeoSeries.from_wkt([str(comb(900, it))]) for it in (False, True))
            try:
                sfq.geopandas.why(one, other, step=None)
            except MemoryError as error:
                print(error, resource.getrusage(resource.RUSAGE_CHILDREN).ru_maxrss < 500_000)
        """, support.python_with("geopandas")), "sfq: out of memory True\n")

    def test_ctrl_c_ends_why(self):
        os.environ["SFQ_LIBRARY"] = library.SHARED
        self.assertEqual(interrupted("""
            one, other = comb(900, False), comb(900, True)
            one.is_valid, other.is_valid
            interrupt_sleeper(lambda: one.why(other))
            print(one.touches("POINT(0 0)"))
        """), ("interrupted\nTrue\n", ""))


if __name__ == "__main__":
    unittest.main()
