"""Numbers in messages of the commands: one thing has the singular."""
import glob
import re
import unittest

from support import ROOT

from sfq.commands import coverage, schemas
from sfq.geometry import grids
from sfq.geometry.counts import number_of
from sfq.layers import relating
from sfq_audit import reports

# A number of a format string with words for several things right behind it.
BY_HAND = re.compile(r"\{(?:len\([^{}]*\)|[^{}]*:,|[^{}]*(?:count|pairs)[^{}]*)\} (?:pairs|records|features|positions|geometries|rows|lines|parts|fields|texts)\b")


class Numbers(unittest.TestCase):
    def test_one_and_several(self):
        for number, words, wanted in (
            (0, ("record",), "0 records"), (1, ("record",), "1 record"), (2, ("record",), "2 records"), (12_345, ("record",), "12,345 records"),
            (1, ("record was", "records were"), "1 record was"), (0, ("record was", "records were"), "0 records were"),
        ):
            self.assertEqual(number_of(number, *words), wanted)

    def test_lines(self):
        shift = grids.Shift()
        shift.add(1, 1, 0, 0.25, 0.25)
        self.assertEqual(shift.said, "1 of 1 position moved by at most 0.25, 0.25 in the mean, 0 merged")
        self.assertEqual(coverage.Found(1, 1, [], 1).line("t"), "t: 1 area, 1 pair that meets: 0 overlaps, 0 borders, 0 gaps, and 1 enclosed part not verified as a gap; it is a coverage")
        found = relating.Found()
        for count, wanted in ((0, "0 pairs that meet"), (1, "1 pair that meets"), (2, "2 pairs that meet")):
            found.meeting = count
            self.assertEqual(relating.line(found), f"rounding changed no relation of {wanted}")
        for count, wanted in ((1, "matrix of 1 pair, differing: 1"), (2_000, "matrix of 2,000 pairs, differing: 2,000")):
            self.assertEqual(reports.said({"asked": "matrix", "pairs": count, "differ": count}), wanted)
        self.assertEqual([schemas.some(it, "field") for it in range(3)], ["no field", "1 field", "2 fields"])

    def test_no_message_says_several_of_one(self):
        """Those of sfq-audit, sfq-scale and the plugin for QGIS count as those of the other commands do."""
        for path in glob.glob(f"{ROOT}/bindings/python/sfq_*/*.py") + glob.glob(f"{ROOT}/bindings/qgis/sfq_qgis/*.py"):
            with open(path, encoding="utf-8") as text:
                self.assertEqual((path, BY_HAND.findall(text.read())), (path, []))
        self.assertTrue(BY_HAND.search('f"{count:,} pairs written"') and BY_HAND.search('f"{len(found)} lines"'))


if __name__ == "__main__":
    unittest.main()
