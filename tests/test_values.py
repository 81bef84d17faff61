"""Values that Python hands over: each is the same number or text on the other side, or an error of the package refuses it."""
import datetime
import decimal
import fractions
import os
import subprocess
import textwrap
import unittest

from support import ROOT, python_with

import sfq
import tables_stand_in
from sfq.geometry import boxes, library, points, texts
from sfq.tables import placeholders, sources

HUGE, DIGITS = 10**400, 10**5_000
HALF = fractions.Fraction(2**60 + 1, 2)
NUMPY = python_with("numpy")
# What a program with numpy prints of a call: what it returns, or the error and its first words.
HEAD = """
    import numpy, warnings
    import sfq
    from sfq.geometry import boxes, points
    from sfq.tables import placeholders, sources
    warnings.simplefilter("error")
    just_more = numpy.longdouble(1) + numpy.longdouble(2) ** -60
    def tell(call, *words):
        try:
            print(call(*words))
        except (sfq.Error, ValueError) as error:
            print(type(error).__name__, str(error)[:60])
    def buffer(values):
        return list(points.buffer(values)[0])
"""


NOT_WHOLE, MASKED = "isn't whole: scale the geometry to a grid", "sfq: a number of the array is masked: leave out its row"


def error(kind, text):
    """Returns the line of an error."""
    return f"{kind} {text[:60]}"


def by_numpy(text):
    """Returns the lines that a program prints by a Python that has numpy."""
    known = {**os.environ, "PYTHONPATH": f"{ROOT}/bindings/python:{ROOT}/tests", "PYTHONDONTWRITEBYTECODE": "1"}
    ran = subprocess.run([NUMPY, "-c", textwrap.dedent(HEAD) + textwrap.dedent(text)], env=known, capture_output=True, text=True)
    return ran.stdout.splitlines() + ran.stderr.splitlines()


class Coordinates(unittest.TestCase):
    def test_whole_numbers_of_any_type(self):
        for value in (5, 5.0, True + 4, fractions.Fraction(10, 2), decimal.Decimal("5.0")):
            self.assertEqual((texts.whole(value), type(texts.whole(value))), (5, int))
        self.assertEqual(texts.whole(HUGE), HUGE)

    def test_others_are_refused(self):
        for value in (0.5, HALF, decimal.Decimal("1e-30"), decimal.Decimal("NaN"), float("nan"), float("inf"), "5", fractions.Fraction(DIGITS + 1, 2)):
            with self.assertRaisesRegex(sfq.GridError, "^sfq: the coordinate .* isn't whole"):
                texts.whole(value)

    def test_numbers_past_the_limit_stay_past_it(self):
        self.assertEqual(list(points.buffer([(HUGE, -DIGITS)])[0]), [2**31 - 1, -(2**31)])
        self.assertEqual(list(boxes.window((-HUGE, -1, 1, HUGE))), [-(2**31), 1, -1, 2**31 - 1])
        self.assertEqual(texts.spelled("Point", (HUGE, 1)), f"POINT({HUGE} 1)")
        with self.assertRaisesRegex(sfq.GridError, "more digits than Python writes"):
            texts.spelled("Point", (DIGITS, 1))

    def test_sizes_of_parts(self):
        room, count = library.sizes_of([5, 2**64 - 1])
        self.assertEqual((list(room), count), ([5, 2**64 - 1], 2))
        for sizes in ([2**64 + 5], [-1], [5, DIGITS]):
            with self.assertRaisesRegex(ValueError, "the parts don't have these positions"):
                library.sizes_of(sizes)

    @unittest.skipUnless(NUMPY, "needs the package python3-numpy")
    def test_arrays_of_numpy(self):
        self.assertEqual(by_numpy("""
            tell(buffer, numpy.array([[1, -2]], dtype="int8"))
            tell(buffer, numpy.array([[1, 2**64 - 1]], dtype="uint64"))
            tell(buffer, numpy.array([[1, 255]], dtype="uint8"))
            tell(buffer, numpy.array([[-2.0**40, 2.0**40]]))
            tell(buffer, numpy.array([[1, numpy.longdouble("1e4000")]], dtype="longdouble"))
            tell(buffer, numpy.array([[1, just_more]], dtype="longdouble"))
            tell(buffer, [(1, just_more)])
            tell(buffer, numpy.array([[1, numpy.nan]]))
            tell(buffer, numpy.ma.array([[1, 2]], mask=[[False, True]]))
            tell(buffer, numpy.ma.array([[1, 2]]))
            tell(buffer, [(1, numpy.ma.masked)])
        """), [
            "[1, -2]", "[1, 2147483647]", "[1, 255]", "[-2147483648, 2147483647]", "[1, 2147483647]",
            *2 * [error("GridError", f"sfq: the coordinate 1.0000000000000000009 {NOT_WHOLE}")],
            error("GridError", f"sfq: the coordinate nan {NOT_WHOLE}"), error("GridError", MASKED), "[1, 2]",
            error("GridError", f"sfq: the coordinate masked {NOT_WHOLE}"),
        ])

    @unittest.skipUnless(NUMPY, "needs the package python3-numpy")
    def test_envelopes_of_numpy(self):
        self.assertEqual(by_numpy("""
            def bounds(values):
                return list(boxes.buffer(values)[0])
            tell(bounds, numpy.array([[1, 2, 3, 4], [numpy.nan] * 4]))
            tell(bounds, numpy.array([[1, 2, 3, 2**63]], dtype="uint64"))
            tell(bounds, numpy.array([[1, 2, 3, just_more]], dtype="longdouble"))
            tell(bounds, numpy.ma.array([[1.0, 2.0, 3.0, 4.0]], mask=[[False, False, False, True]]))
        """), [
            "[1, 3, 2, 4, 0, -1, 0, -1]", "[1, 3, 2, 2147483647]",
            error("GridError", f"sfq: the coordinate 1.0000000000000000009 {NOT_WHOLE}"), error("GridError", MASKED),
        ])


class Parameters(unittest.TestCase):
    def test_whole_numbers_of_more_than_64_bits(self):
        """Each is a number of more than 64 bits in the query too, so that its fault is Q12."""
        for value, text in ((HUGE, str(2**63)), (-DIGITS, str(-(2**63) - 1)), (2**63 - 1, str(2**63 - 1)), (-(2**63), str(-(2**63)))):
            constant = placeholders.of_value(value, 1)
            self.assertEqual((constant.type, constant.text, constant.value), ("INTEGER", text, value))

    def test_what_is_refused(self):
        class Half:
            __geo_interface__ = {"type": "Point", "coordinates": (0.5, 2)}

        for value, kind in (
            (1.0, sfq.InterfaceError), (HALF, sfq.InterfaceError), (decimal.Decimal(1), sfq.InterfaceError), (float("nan"), sfq.InterfaceError),
            (datetime.timedelta(1), sfq.InterfaceError), ("a\udcff", sfq.DataError), (Half(), sfq.DataError),
        ):
            with self.assertRaisesRegex(kind, r"^sfq: the value for \? 3"):
                placeholders.of_value(value, 3)

    @unittest.skipUnless(NUMPY, "needs the package python3-numpy")
    def test_values_of_numpy(self):
        # The type longdouble has the name float128 in numpy 1.
        (longdouble,) = by_numpy("print(numpy.longdouble.__name__)")
        self.assertEqual(by_numpy("""
            for it in (numpy.uint64(2**64 - 1), numpy.int8(-3), numpy.array(5), numpy.ma.array(5), numpy.ma.array(5, mask=True), numpy.ma.masked,
                       just_more, numpy.timedelta64(5, "s"), numpy.float64(5)):
                tell(lambda: placeholders.of_value(it, 1).text)
        """), [
            str(2**63), "-3", "5", "5",
            *(error("InterfaceError", f"sfq: the value for ? 1 is a {name}: sfq has whole numbers, texts, geometries")
              for name in ("MaskedArray", "MaskedConstant", longdouble, "timedelta64", "float64")),
        ])


class Tables(unittest.TestCase):
    def field(self, value):
        """Returns the field of a value in a column."""
        return sources.csv_of("t", {"id": [value]}, [("id", "TEXT")]).decode().removeprefix("id\n").removesuffix("\n")

    def test_numbers_are_exact(self):
        for value, wanted in (
            (HUGE, str(HUGE)), (2**53 + 1, str(2**53 + 1)), (0.1, "0.1"), (1e300, str(int(1e300))), (fractions.Fraction(1, 4), "0.25"),
            (fractions.Fraction(2**70), str(2**70)), (True, "1"), (-0.0, "0"), (float("nan"), '""'),
        ):
            self.assertEqual(self.field(value), wanted)

    def test_numbers_that_would_be_rounded_are_refused(self):
        for value, said in (
            (HALF, "is no double, so it would be rounded"), (fractions.Fraction(1, 3), "is no double"), (fractions.Fraction(HUGE, 3), "is no double"),
            (DIGITS, "more digits than Python writes"), (decimal.Decimal("0.1"), "a Decimal is no value"), (1j, "a complex is no value"),
            (datetime.timedelta(1), "a timedelta is no value"),
        ):
            with self.assertRaisesRegex(sfq.DataError, f"^sfq: t: record 1, column id: .*{said}"):
                self.field(value)

    def test_texts_that_are_not_utf_8_are_left_to_the_library(self):
        """Its fault is L4, with the record."""
        made = sources.csv_of("t", {"id": ["a\udcff"]}, [("id", "TEXT")])
        self.assertEqual(made, b"id\na\xed\xb3\xbf\n")

    @unittest.skipUnless(NUMPY, "needs the package python3-numpy")
    def test_columns_of_numpy(self):
        self.assertEqual(by_numpy("""
            def column(values):
                return sources.csv_of("t", {"id": values}, [("id", "TEXT")])
            tell(column, numpy.ma.array([1, 2, 3], mask=[False, True, False]))
            tell(column, [numpy.ma.masked, numpy.float32("nan"), numpy.longdouble("nan"), numpy.float32(0.5)])
            tell(column, numpy.array([just_more]))
            tell(column, [just_more])
            tell(column, numpy.array([numpy.longdouble(2) ** 63 + 1]))
            tell(column, numpy.array(["2026-11-28", "NaT"], dtype="datetime64[D]"))
            tell(column, numpy.array(["2026-11-28T01:02:03.000000004", "NaT"], dtype="datetime64[ns]"))
            tell(column, numpy.array([5], dtype="timedelta64[ns]"))
            tell(column, numpy.array([2**64 - 1], dtype="uint64"))
        """), [
            r"""b'id\n1\n""\n3\n'""", r"""b'id\n""\n""\n""\n0.5\n'""",
            *2 * [error("DataError", "sfq: t: record 1, column id: the number 1.0000000000000000009 is no double")],
            rf"b'id\n{2**63 + 1}\n'", r"""b'id\n2026-11-28\n""\n'""", r"""b'id\n2026-11-28T01:02:03.000000004\n""\n'""",
            error("DataError", "sfq: t: record 1, column id: a timedelta64 is no value of a table"), rf"b'id\n{2**64 - 1}\n'",
        ])


class ByStandIn(unittest.TestCase):
    def test_a_number_that_is_too_large_is_not_another_number(self):
        tables_stand_in.Calls().use(self)
        db = sfq.connect("CREATE TABLE t (id INTEGER)", {"t": {"id": [1, 2**63 - 1]}})
        for value in (HUGE, -DIGITS, 2**64 + 1):
            self.assertEqual(db.execute("SELECT id FROM t WHERE id = ?", [value]).fetchall(), [])


if __name__ == "__main__":
    unittest.main()
