"""Reports on test files: all wrong cases, in one piece and in many, and their counts."""
import io
import pickle
import unittest

import bidi_proved as bidi
from bidi_proved import Direction, Wrong

from . import small_tables

RIGHT = b"@Levels: 1 1 0\n@Reorder: 1 0 2\nR B L; 1\n"
FAULTS = b"@Levels: 0\n@Reorder: 0\nL; 7\n@Levels: x 3\n@Reorder:\nLRE R; 3\nL; 1"
CASES = [
    bidi.WrongCase(3, Direction.RTL, Wrong.LEVELS, 0, 0, 2),
    bidi.WrongCase(6, Direction.AUTO, Wrong.ORDER, 0, bidi.ENDED, 1),
    bidi.WrongCase(6, Direction.LTR, Wrong.ORDER, 0, bidi.ENDED, 1),
    bidi.WrongCase(7, Direction.AUTO, Wrong.LEVELS, 0, None, 0),
]
LINES = [
    "line 3: rtl: levels at 0: claimed 0, defined 2",
    "line 6: auto: order at 0: claimed nothing, defined 1",
    "line 6: ltr: order at 0: claimed nothing, defined 1",
    "line 7: auto: levels at 0: claimed x, defined 0",
]
ROWS = b"0061 05D0;2;1;0 1;0 1\n05D0;0;0;1;1\n0061;2;0;0;0"


@unittest.skipUnless(bidi.HAS_REPORTS, "the library has no reports")
class Reported(unittest.TestCase):
    def test_cases(self):
        found = list(bidi.report_classes(FAULTS))
        self.assertEqual(found, CASES)
        self.assertEqual([str(case) for case in found], LINES)

    def test_pieces(self):
        for size in (1, 2, 7, 30, 1000):
            pieces = [FAULTS[at : at + size] for at in range(0, len(FAULTS), size)]
            self.assertEqual(list(bidi.report_classes(pieces)), CASES)
        for source in (io.BytesIO(FAULTS), bytearray(FAULTS), [b"", FAULTS, b""]):
            self.assertEqual(list(bidi.report_classes(source)), CASES)

    def test_counts(self):
        report = bidi.Report()
        self.assertEqual(report.feed(FAULTS), CASES[:3])
        self.assertIsNone(report.counts)
        self.assertEqual(report.finish(), CASES[3:])
        counts = report.counts
        self.assertFalse(counts)
        self.assertEqual(counts[:4], (3, 6, 3, 4))
        directions = {Direction.LTR: 1, Direction.RTL: 1, Direction.AUTO: 2, Direction.AUTO_RTL: 0}
        self.assertEqual(counts.directions, directions)
        self.assertEqual(counts.places, {Wrong.PARA_LEVEL: 0, Wrong.LEVELS: 2, Wrong.ORDER: 2})
        self.assertEqual((counts.malformed, counts.cause), (None, None))

    def test_right(self):
        self.assertEqual(list(bidi.report_classes(RIGHT)), [])
        report = bidi.Report()
        self.assertEqual(report.feed(RIGHT) + report.finish(), [])
        self.assertTrue(report.counts)

    def test_malformed(self):
        found = []
        with self.assertRaises(bidi.MalformedLine) as raised:
            for case in bidi.report_classes(FAULTS + b"\nL; 16\nL; 1\n"):
                found.append(case)
        self.assertEqual(found, CASES)
        again = pickle.loads(pickle.dumps(raised.exception))
        self.assertEqual((again.line, again.cause), (8, bidi.Cause.BIT_SET))

    def test_characters(self):
        tables = small_tables()
        found = [(case.line, case.direction, case.place, case.index, case.claimed, case.defined)
                 for case in bidi.report_characters(ROWS, tables)]
        self.assertEqual(found, [
            (1, Direction.AUTO, Wrong.PARA_LEVEL, None, 1, 0),
            (2, Direction.LTR, Wrong.ORDER, 0, 1, 0),
        ])
        self.assertEqual(tables.mirror("("), ")")

    def test_limits(self):
        row = b"@Levels: x x 3\n@Reorder: 2\nRLE LRE R; 2\n"
        self.assertEqual(list(bidi.report_classes(row)), [])
        (case,) = bidi.report_classes(row, bidi.Limits(1, 63))
        self.assertEqual((case.index, case.claimed, case.defined), (2, 3, 1))
        with self.assertRaises(bidi.BracketsRefused):
            bidi.report_classes(row, bidi.Limits(125, 64))

    def test_ended(self):
        report = bidi.Report()
        report.finish()
        for call in (report.finish, lambda: report.feed(b""), lambda: report.feed(RIGHT)):
            with self.assertRaises(bidi.NoReport):
                call()

    def test_as_the_judge(self):
        for file in (FAULTS, RIGHT, FAULTS[30:], b"L; 7\n"):
            verdict, report = bidi.judge_classes(file), bidi.Report()
            found = report.feed(file) + report.finish()
            self.assertEqual(bool(verdict), bool(report.counts))
            first = found[0] if found else None
            if first:
                self.assertEqual((verdict.line, verdict.direction, verdict.index), (first.line, first.direction, first.index))
