"""One line alone of a text that is laid out, beside the text's lines and worked out by hand."""
import concurrent.futures
import unittest
import unittest.mock

import bidi_proved as bidi

from . import all_tables, small_tables

ALEF, BET, PDF = "\u05d0\u05d1\u202c"
TEXT = f"a b\nc {ALEF}{PDF} 1"
WORDS = ["\ufeffab ", f"({ALEF}\u200d{BET}) ", "12,\u200d ", f"\u202b{BET}a\u202c ", f"{ALEF}-3 \n", "(x) "]
LONG = "".join(WORDS[i * i % 11 % 6] for i in range(500))


def properties(line, levels):
    """Returns all properties of a line, and these levels of its positions."""
    common = (line.start, line.end, line.order, line.places, line.runs, line.shown, line.display())
    return (*common, levels)


class Worked(unittest.TestCase):
    def setUp(self):
        self.tables = small_tables()
        self.layout = bidi.lay_out(TEXT, self.tables, bidi.Direction.RTL, breaks=[1])

    def test_white_space_at_its_end(self):
        line = self.layout.line_of(0, 2)
        self.assertEqual((line.start, line.end, line.levels, line.order), (0, 2, [2, 1], [1, 0]))
        line = self.layout.line_of(0, 3)
        self.assertEqual((line.levels, line.order, line.display()), ([2, 2, 2], [0, 1, 2], "a b"))

    def test_paragraph_separator(self):
        line = self.layout.line_of(1, 4)
        self.assertEqual((line.levels, line.shown, line.display()), ([2, 2, 1], "\n b", " b"))
        self.assertEqual(self.layout.line_of(3, 4).display(), "")

    def test_removed_positions(self):
        line = self.layout.line_of(4, 10)
        self.assertEqual((line.levels, line.order), ([2, 1, 1, None, 1, 2], [9, 8, 6, 5, 4]))
        self.assertEqual(line.places, [4, 3, 2, None, 1, 0])
        self.assertEqual(line.runs, [bidi.Run(9, 1, 1, 2), bidi.Run(5, 4, 3, 1), bidi.Run(4, 1, 1, 2)])
        self.assertEqual(line.display(), f"1 {ALEF} c")
        alone = self.layout.line_of(7, 8)
        self.assertEqual((alone.levels, alone.order, alone.places), ([None], [], [None]))
        self.assertEqual(alone.runs, [bidi.Run(7, 1, 0, 1)])
        self.assertEqual(alone.display(), "")

    def test_mirror_images(self):
        layout = bidi.lay_out(f"{ALEF} (b", self.tables)
        self.assertEqual(layout.line_of(0, 3).display(), f") {ALEF}")

    def test_classes(self):
        line = bidi.lay_out_classes(["R", "LRE", "AL", 0, "PDF", "EN"]).line_of(0, 6)
        self.assertEqual((line.levels, line.order), ([1, None, 3, 2, None, 2], [2, 3, 5, 0]))
        with self.assertRaises(ValueError):
            line.shown  # pylint: disable=pointless-statement

    def test_layout_stays(self):
        before = [properties(line, self.layout.levels) for line in self.layout.lines]
        self.layout.line_of(4, 9)
        self.assertEqual([properties(line, self.layout.levels) for line in self.layout.lines], before)
        self.assertEqual([line.start for line in self.layout.lines], [0, 1, 4])

    def test_line_stays(self):
        room = bidi.Room(20)
        layout = room.lay_out(TEXT, self.tables)
        line = layout.line_of(4, 10)
        before = properties(line, line.levels)
        room.lay_out(f"{BET} 1", self.tables)
        self.assertEqual(properties(line, line.levels), before)
        with self.assertRaises(bidi.StaleLayout):
            layout.line_of(4, 10)

    def test_paragraph_of_a_position(self):
        layout = bidi.lay_out(f"a\n{ALEF}1", self.tables)
        self.assertEqual([layout.para_level_at(at) for at in (0, 1, 2, 3, 4, 2**70)], [0, 0, 1, 1, None, None])
        self.assertEqual(bidi.lay_out_classes(["L", "B", "R"]).para_level_at(2), 1)
        self.assertIsNone(bidi.lay_out("", self.tables).para_level_at(0))
        with self.assertRaises(ValueError):
            layout.para_level_at(-1)
        layout.set_lines([1])
        with self.assertRaises(bidi.StaleLayout):
            layout.para_level_at(0)

    def test_older_library(self):
        with unittest.mock.patch("bidi_proved.library.HAS_LINE_OF", False), self.assertRaises(NotImplementedError):
            self.layout.line_of(0, 1)


class BesideLines(unittest.TestCase):
    """Each line of a long text has the same properties alone as among the others."""

    def setUp(self):
        self.whole = bidi.lay_out(LONG, all_tables())

    def test_each_line(self):
        broken = self.whole
        for step in (1, 3, 7, 40, 1000):
            broken = broken.set_lines(range(step, len(LONG), step))
            levels = broken.levels
            for line in broken.lines:
                alone = broken.line_of(line.start, line.end)
                among = properties(line, levels[line.start : line.end])
                self.assertEqual(properties(alone, alone.levels), among)
                covered = [at for run in line.runs for at in range(run.start, run.start + run.length)]
                self.assertEqual(sorted(covered), list(range(line.start, line.end)))

    def test_other_lines(self):
        """Wherever the lines of the room's layout end."""
        broken = self.whole.set_lines(range(5, len(LONG), 5))
        levels, lines = broken.levels, broken.lines
        spans = [(line.start, line.end, line.order) for line in lines]
        whole = broken.set_lines([])
        for start, end, order in spans:
            alone = whole.line_of(start, end)
            self.assertEqual((alone.levels, alone.order), (levels[start:end], order))

    def test_threads(self):
        spans = [(line.start, line.end) for line in self.whole.lines]
        expected = [self.whole.line_of(*span).order for span in spans]
        with concurrent.futures.ThreadPoolExecutor(8) as pool:
            self.assertEqual(list(pool.map(lambda span: self.whole.line_of(*span).order, spans)), expected)


class Rejected(unittest.TestCase):
    def setUp(self):
        self.tables = small_tables()
        self.layout = bidi.Room(30).lay_out(TEXT, self.tables)

    def check_rejected(self, kind, spans):
        before = [self.layout.levels, self.layout.display()]
        for span in spans:
            with self.assertRaises(kind, msg=span) as raised:
                self.layout.line_of(*span)
            self.assertIs(type(raised.exception), kind, span)
            self.assertIsInstance(raised.exception, ValueError)
            self.assertEqual(str(raised.exception), kind.says)
        self.assertEqual([self.layout.levels, self.layout.display()], before)

    def test_not_forward(self):
        spans = [(0, 0), (2, 2), (3, 2), (10, 10), (30, 11), (99, 12), (-1, -1), (0, -1), (2**64, 0), (2**64, 2**64)]
        self.check_rejected(bidi.LineNotForward, spans)

    def test_beyond_text(self):
        spans = [(9, 11), (0, 11), (10, 11), (2, 30), (5, 31), (99, 100), (0, 2**64), (2**64, 2**65)]
        self.check_rejected(bidi.LineBeyondText, spans + [(-1, 2), (-3, -1), (-1, 11), (-(2**64), 4)])

    def test_crosses_paragraph(self):
        self.check_rejected(bidi.LineCrossesParagraph, [(0, 5), (3, 5), (2, 10), (0, 10)])
        self.assertEqual(self.layout.line_of(4, 10).end, 10)

    def test_of_nothing(self):
        self.layout = bidi.lay_out("", self.tables)
        self.check_rejected(bidi.LineNotForward, [(0, 0)])
        self.check_rejected(bidi.LineBeyondText, [(0, 1), (0, 2**64)])
