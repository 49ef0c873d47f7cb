"""Test files that are right, wrong and malformed, in one piece and in many."""
import io
import unittest

import bidi_proved as bidi

from . import small_tables

RIGHT = b"@Levels: 1 1 0\n@Reorder: 1 0 2\nR B L; 1\n"
WRONG = b"@Levels: 0\n@Reorder: 0\nL; 7\n"
ROW = b"05D0 0028 0061 0029 05D1;1;1;1 1 2 1 1;4 3 2 1 0\n"


class Judged(unittest.TestCase):
    def test_yes(self):
        verdict = bidi.judge_classes(RIGHT)
        self.assertTrue(verdict)
        self.assertEqual(str(verdict), "yes: 1 rows, 1 cases")
        self.assertEqual((verdict.answer, verdict.rows, verdict.cases), (bidi.Answer.YES, 1, 1))

    def test_wrong(self):
        verdict = bidi.judge_classes(WRONG)
        self.assertFalse(verdict)
        self.assertEqual(str(verdict), "no: line 3: rtl: levels at 0")
        found = (verdict.answer, verdict.reason, verdict.direction, verdict.line, verdict.index)
        self.assertEqual(found, (bidi.Answer.WRONG, bidi.Wrong.LEVELS, bidi.Direction.RTL, 3, 0))

    def test_malformed(self):
        verdict = bidi.judge_classes(b"L; 7\n")
        found = (verdict.answer, verdict.reason, verdict.line, verdict.rows)
        self.assertEqual(found, (bidi.Answer.MALFORMED, bidi.Cause.NO_EXPECTATION, 1, None))

    def test_pieces(self):
        bytewise = (bytes([byte]) for byte in WRONG)
        for source in (io.BytesIO(WRONG), [WRONG[:5], b"", WRONG[5:]], bytewise, bytearray(WRONG)):
            self.assertEqual(bidi.judge_classes(source).line, 3)

    def test_characters(self):
        tables = small_tables()
        self.assertTrue(bidi.judge_characters(ROW, tables))
        self.assertFalse(bidi.judge_characters(ROW.replace(b"1 2 1", b"1 4 1"), tables))
        self.assertEqual(tables.mirror("("), ")")

    def test_limits(self):
        row = b"@Levels: x x 3\n@Reorder: 2\nRLE LRE R; 2\n"
        self.assertTrue(bidi.judge_classes(row))
        self.assertFalse(bidi.judge_classes(row, bidi.Limits(1, 63)))
        with self.assertRaises(bidi.DepthRefused):
            bidi.judge_classes(row, bidi.Limits(0, 63))

    def test_one_verdict(self):
        judge = bidi.Judge()
        judge.feed(RIGHT)
        self.assertTrue(judge.finish())
        with self.assertRaises(bidi.NoJudge):
            judge.feed(RIGHT)
        with self.assertRaises(bidi.NoJudge):
            judge.finish()
