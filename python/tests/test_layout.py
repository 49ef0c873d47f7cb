"""Texts whose levels, order, runs and shown lines were worked out by hand by the rules."""
import pickle
import re
import unittest
import unittest.mock

import bidi_proved as bidi
from bidi_proved.errors import BY_STATUS

from . import EDITION, PUBLISHED, TEST_FILES, TOP, all_tables, small_tables

ALEF, BET, GIMEL, DALET = "\u05d0\u05d1\u05d2\u05d3"
JOINER, BYTE_ORDER_MARK = "\u200d\ufeff"


class Worked(unittest.TestCase):
    def setUp(self):
        self.tables = small_tables()

    def test_right_to_left_text(self):
        layout = bidi.lay_out(f"ab ({GIMEL}{DALET}) 12", self.tables, bidi.Direction.RTL)
        self.assertEqual(layout.levels, [2, 2, 1, 1, 1, 1, 1, 1, 2, 2])
        self.assertEqual(layout.paragraph_levels, [1])
        (line,) = layout.lines
        self.assertEqual((line.start, line.end), (0, 10))
        self.assertEqual(line.order, [8, 9, 7, 6, 5, 4, 3, 2, 0, 1])
        self.assertEqual(line.places, [8, 9, 7, 6, 5, 4, 3, 2, 0, 1])
        self.assertEqual(line.runs, [bidi.Run(8, 2, 2, 2), bidi.Run(2, 6, 6, 1), bidi.Run(0, 2, 2, 2)])
        self.assertEqual(layout.display(), [f"12 ({DALET}{GIMEL}) ab"])

    def test_automatic_direction(self):
        layout = bidi.lay_out(f"{ALEF}{BET} (cd) 12\n", self.tables)
        self.assertEqual(layout.levels, [1, 1, 1, 1, 2, 2, 1, 1, 2, 2, 1])
        self.assertEqual(layout.display(), [f"12 (cd) {BET}{ALEF}"])
        self.assertEqual(layout.lines[0].shown, f"\n12 (cd) {BET}{ALEF}")
        self.assertEqual(bidi.lay_out("12", self.tables, bidi.Direction.AUTO_RTL).paragraph_levels, [1])
        self.assertEqual(bidi.lay_out("12", self.tables, bidi.Direction.AUTO).paragraph_levels, [0])

    def test_paragraphs_and_breaks(self):
        layout = bidi.lay_out(f"ab\n{ALEF}{BET}", self.tables, breaks=[1, 4])
        self.assertEqual(layout.paragraph_levels, [0, 1])
        self.assertEqual([(line.start, line.end) for line in layout.lines], [(0, 1), (1, 3), (3, 4), (4, 5)])
        self.assertEqual(layout.display(), ["a", "b", ALEF, BET])
        self.assertEqual(bidi.display("a\n\nb\n", self.tables), ["a", "", "b"])

    def test_lines_after_the_layout(self):
        whole = bidi.lay_out(f"{ALEF} {BET} a", self.tables, bidi.Direction.LTR)
        self.assertEqual((whole.levels, whole.display()), ([1, 1, 1, 0, 0], [f"{BET} {ALEF} a"]))
        broken = whole.set_lines([2])
        self.assertEqual(broken.levels, [1, 0, 1, 0, 0])
        self.assertEqual(broken.display(), [f"{ALEF} ", f"{BET} a"])
        with self.assertRaises(bidi.StaleLayout):
            whole.set_lines([])
        with self.assertRaises(bidi.BreakOutOfRange):
            broken.set_lines([2, 5])
        self.assertEqual(broken.set_lines([]).levels, [1, 1, 1, 0, 0])

    def test_removed_positions(self):
        layout = bidi.lay_out_classes(["R", "LRE", "AL", 0, "PDF", "EN"])
        self.assertEqual(layout.levels, [1, None, 3, 2, None, 2])
        (line,) = layout.lines
        self.assertEqual(line.order, [2, 3, 5, 0])
        self.assertEqual(line.places, [3, None, 0, 1, None, 2])
        with self.assertRaises(ValueError):
            line.shown  # pylint: disable=pointless-statement

    def test_nothing(self):
        layout = bidi.lay_out("", self.tables)
        self.assertEqual((layout.levels, layout.display()), ([], []))
        self.assertEqual(bidi.lay_out_classes([]).levels, [])

    def test_limits(self):
        classes = ["RLE", "LRE", "R"]
        for depth, level in ((125, 3), (1, 1)):
            layout = bidi.lay_out_classes(classes, bidi.Direction.LTR, limits=bidi.Limits(depth, 63))
            self.assertEqual(layout.levels, [None, None, level])
        for brackets, level in ((63, 1), (0, 0)):
            layout = bidi.lay_out(f"{ALEF}({BET})", self.tables, bidi.Direction.LTR, limits=(125, brackets))
            self.assertEqual(layout.levels, [1, 1, 1, level])

    def test_mirror(self):
        self.assertEqual(self.tables.mirror("("), ")")
        self.assertEqual(self.tables.mirror("a"), "a")

    def test_characters_beyond_two_bytes(self):
        text = "\U00010840a\U0001f600"
        layout = bidi.lay_out(text, all_tables())
        self.assertEqual(layout.levels, [1, 2, 1])
        self.assertEqual(layout.display(), ["\U0001f600a\U00010840"])

    def test_layout_of_a_room(self):
        room = bidi.Room(4)
        first = room.lay_out("ab", self.tables)
        with self.assertRaises(bidi.NoCharacter):
            room.lay_out("\ud800", self.tables)
        self.assertEqual(first.levels, [0, 0])
        second = room.lay_out(ALEF, self.tables)
        self.assertEqual(second.levels, [1])
        with self.assertRaises(bidi.StaleLayout):
            first.levels  # pylint: disable=pointless-statement


class Runs(unittest.TestCase):
    """Runs with what X9 removes, of a line among others and of the same line alone."""

    def check(self, layout, *expected):
        expected = [[bidi.Run(*run) for run in runs] for runs in expected]
        self.assertEqual([line.runs for line in layout.lines], expected)
        alone = [layout.line_of(line.start, line.end) for line in layout.lines]
        self.assertEqual([line.runs for line in alone], expected)

    def lay_out(self, text, direction=bidi.Direction.AUTO, breaks=()):
        return bidi.lay_out(text, all_tables(), direction, breaks)

    def test_joiner_between_letters(self):
        self.check(self.lay_out(f"a{ALEF}{JOINER}{BET} b"), [(0, 1, 1, 0), (1, 3, 2, 1), (4, 2, 2, 0)])
        self.check(self.lay_out(f"{ALEF}{JOINER}a"), [(1, 2, 1, 2), (0, 1, 1, 1)])

    def test_byte_order_mark(self):
        self.check(self.lay_out(f"{BYTE_ORDER_MARK}{ALEF} a"), [(3, 1, 1, 2), (0, 3, 2, 1)])
        self.check(self.lay_out(f"{BYTE_ORDER_MARK}a", breaks=[1]), [(0, 1, 0, 0)], [(1, 1, 1, 0)])

    def test_joiner_at_an_end(self):
        ltr, rtl = bidi.Direction.LTR, bidi.Direction.RTL
        self.check(self.lay_out(f"a{ALEF}{JOINER}", ltr), [(0, 1, 1, 0), (1, 1, 1, 1), (2, 1, 0, 0)])
        self.check(self.lay_out(f"a{ALEF}{JOINER}", rtl), [(1, 2, 1, 1), (0, 1, 1, 2)])
        self.check(self.lay_out(f"{ALEF}a{JOINER * 2}", rtl), [(2, 2, 0, 1), (1, 1, 1, 2), (0, 1, 1, 1)])
        self.check(self.lay_out(f"{ALEF}a{JOINER * 2}", ltr), [(0, 1, 1, 1), (1, 3, 1, 0)])
        self.check(self.lay_out(JOINER * 3, bidi.Direction.AUTO_RTL), [(0, 3, 0, 1)])

    def test_paragraphs(self):
        text = f"a\r\n{ALEF}1{JOINER}\n{BET}{JOINER}c{JOINER}\na"
        before = [[(0, 2, 2, 0)], [(2, 1, 1, 0)]]
        whole = [[(5, 2, 1, 1), (4, 1, 1, 2), (3, 1, 1, 1)]]
        parts = [[(5, 1, 0, 1), (4, 1, 1, 2), (3, 1, 1, 1)], [(6, 1, 1, 1)]]
        last_runs = [[(10, 2, 1, 1), (8, 2, 1, 2), (7, 1, 1, 1)], [(12, 1, 1, 0)]]
        self.check(self.lay_out(text), *before, *whole, *last_runs)
        self.check(self.lay_out(text, breaks=[6]), *before, *parts, *last_runs)

    def test_classes(self):
        layout = bidi.lay_out_classes(["L", "BN", "B", "R", "EN", "BN"])
        self.check(layout, [(0, 3, 2, 0)], [(5, 1, 0, 1), (4, 1, 1, 2), (3, 1, 1, 1)])
        self.check(bidi.lay_out_classes(["BN", 2, "LRE"]), [(0, 3, 1, 1)])

    def test_older_library(self):
        (line,) = self.lay_out(JOINER).lines
        with unittest.mock.patch("bidi_proved.library.HAS_RUNS", False), self.assertRaises(NotImplementedError):
            line.runs  # pylint: disable=pointless-statement


class Rejected(unittest.TestCase):
    def setUp(self):
        self.tables = small_tables()

    def check_placed(self, kind, place, call, *words, **named):
        with self.assertRaises(kind) as raised:
            call(*words, **named)
        self.assertEqual(raised.exception.place, place)

    def test_places(self):
        self.check_placed(bidi.NoCharacter, 1, bidi.lay_out, "a\ud800", self.tables)
        self.check_placed(bidi.NoClass, 2, bidi.lay_out_classes, ["L", 22, 23])
        self.check_placed(bidi.NoClass, 0, bidi.lay_out_classes, ["l"])
        self.check_placed(bidi.NoClass, 1, bidi.lay_out_classes, ["L", 300])
        self.check_placed(bidi.NoClass, 1, bidi.lay_out_classes, ["L", -1])
        for breaks, place in (([0], 0), ([1, 3], 1), ([-1], 0), ([2**64], 0)):
            self.check_placed(bidi.BreakOutOfRange, place, bidi.lay_out, "abc", self.tables, breaks=breaks)
        self.check_placed(bidi.BreakNotRising, 1, bidi.lay_out, "abc", self.tables, breaks=[2, 2])

    def test_sizes_and_limits(self):
        with self.assertRaises(bidi.TextTooLong):
            bidi.Room(2).lay_out("abc", self.tables)
        for size in (16777217, 2**64):
            with self.assertRaises(bidi.RoomTooBig):
                bidi.Room(size)
        with self.assertRaises(ValueError):
            bidi.Room(-5)
        for depth in (-1, 0, 126, 256):
            with self.assertRaises(bidi.DepthRefused):
                bidi.lay_out("a", self.tables, limits=(depth, 63))
        for brackets in (-1, 64, 256):
            with self.assertRaises(bidi.BracketsRefused):
                bidi.lay_out("a", self.tables, limits=(125, brackets))
        with self.assertRaises(ValueError):
            bidi.lay_out("a", self.tables, 4)

    def test_faulty_tables(self):
        with self.assertRaises(bidi.ClassFileFault) as raised:
            bidi.Tables(b"0041 ; L\n41 ; L\n", b"", b"")
        self.assertEqual((raised.exception.line, raised.exception.kind), (2, bidi.FaultKind.CODE_POINT))
        self.assertEqual(str(raised.exception), "DerivedBidiClass.txt: line 2: CODE_POINT")
        with self.assertRaises(bidi.BracketFileFault):
            bidi.Tables(b"", b"0028; 0029; x\n", b"")
        with self.assertRaises(bidi.MirrorFileFault):
            bidi.Tables(b"", b"", b"0028\n")


class Statuses(unittest.TestCase):
    """Each status of the header has an exception, except those that no call of the module can return."""

    NEVER = {
        "BIDI_DONE", "BIDI_NO_DIRECTION", "BIDI_NO_ROOM", "BIDI_NO_TABLES", "BIDI_NO_PLACE", "BIDI_TOO_SMALL",
        "BIDI_NO_CASE", "BIDI_CASES_LEFT", "BIDI_NO_LEVEL",
    }

    def test_exceptions(self):
        header = (TOP / "c/bidi.h").read_text()
        enum = re.search(r"enum \{\n( *BIDI_DONE = 0,.*?)\};", header, re.DOTALL)[1]
        numbers = {name: int(number) for name, number in re.findall(r"^ *(BIDI_\w+) = (\d+)", enum, re.MULTILINE)}
        self.assertEqual(set(BY_STATUS), {number for name, number in numbers.items() if name not in self.NEVER})


class BuiltIn(unittest.TestCase):
    def test_standard_tables(self):
        if not bidi.HAS_STANDARD_TABLES:
            self.assertIsNone(bidi.edition())
            with self.assertRaises(NotImplementedError):
                bidi.Tables.standard()
            return
        self.assertEqual(bidi.edition(), EDITION)
        tables = bidi.Tables.standard()
        self.assertEqual(bidi.display(f"{ALEF}(b)", tables), [f"(b){ALEF}"])
        self.assertEqual(pickle.loads(pickle.dumps(tables)).mirror("("), ")")


class Published(unittest.TestCase):
    """Each fiftieth row of the published BidiCharacterTest.txt."""

    def test_rows(self):
        rows = self.rows()
        tables = bidi.Tables.read(PUBLISHED)
        for row in rows:
            codes, direction, paragraph, levels, order = row.split(";")
            layout = bidi.lay_out("".join(chr(int(code, 16)) for code in codes.split()), tables, int(direction))
            self.assertEqual(layout.paragraph_levels[:1], [int(paragraph)], row)
            self.assertEqual(["x" if level is None else str(level) for level in layout.levels], levels.split(), row)
            if layout.lines:
                self.assertEqual([str(at) for at in layout.lines[0].order], order.split(), row)

    def rows(self):
        file = TEST_FILES / "BidiCharacterTest.txt"
        if not file.exists():
            self.skipTest(f"no {file} (package unicode-data)")
        rows = [row for row in file.read_text().splitlines() if row and row[0] != "#"]
        return rows[::50]
