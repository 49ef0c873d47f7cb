"""Texts in UTF-8, with offsets as positions: worked ones, and many beside their characters."""
import unittest
import unittest.mock

import bidi_proved as bidi
from bidi_proved import library

from . import all_tables, small_tables

ALEF, BET = "\u05d0\u05d1"
HAS_LINES = unittest.skipUnless(library.HAS_UTF8_LINE_OF, "this library lays out no line alone of UTF-8")
HAS_SHOWN = unittest.skipUnless(library.HAS_UTF8_SHOWN, "this library shows no line in UTF-8")
RLE, EMOJI, JOINER, BYTE_ORDER_MARK = "\u202b\U0001f600\u200d\ufeff"
PARTS = ["ab ", f"{ALEF}{JOINER}{BET} ", f"12,{JOINER} ", f"({ALEF}b) ", "x\n", f"{BET}-3 ", f"{RLE}a", EMOJI]
FAULTS = [b"\xff", b"\xf0\x9f\x98", b"\xd7", b"\xed\xa0\x80", b"\xe2\x82"]
TEXTS = ["".join(PARTS[(k * i) % 8] for i in range(k % 19)) for k in range(200)]


def starts_of(characters):
    """Returns the offset at which each character begins, and that of the text's end."""
    found = [0]
    for character in characters:
        found.append(found[-1] + len(character.encode("utf-8")))
    return found


@unittest.skipUnless(bidi.HAS_UTF8, "this library lays out no UTF-8")
class Worked(unittest.TestCase):
    def setUp(self):
        self.tables = small_tables()
        self.text = f"ab {ALEF}({BET}) 1"

    def test_offsets(self):
        layout = bidi.lay_out_utf8(self.text, self.tables, breaks=[3])
        self.assertEqual(layout.text, self.text.encode("utf-8"))
        self.assertEqual(layout.levels, [0, 0, 0, 1, 1, 1, 1, 1, 1, 1, 2])
        self.assertEqual(layout.paragraph_levels, [0])
        self.assertEqual([layout.index_of(at) for at in range(12)], [0, 1, 2, 3, 3, 4, 5, 5, 6, 7, 8, 9])
        self.assertEqual([layout.offset_of(index) for index in range(11)], [0, 1, 2, 3, 5, 6, 8, 9, 10, 11, 11])
        first, second = layout.lines
        self.assertEqual((first.start, first.end, first.order), (0, 3, [0, 1, 2]))
        self.assertEqual((second.start, second.end, second.order), (3, 11, [10, 9, 8, 6, 5, 3]))
        self.assertEqual(first.runs, [bidi.Run(0, 3, 3, 0)])
        self.assertEqual(second.runs, [bidi.Run(10, 1, 1, 2), bidi.Run(3, 7, 5, 1)])

    def test_removed(self):
        layout = bidi.lay_out_utf8(f"a{RLE}b\n{EMOJI}".encode("utf-8"), self.tables)
        self.assertEqual(layout.levels, [0, None, None, None, 2, 0, 0, 0, 0, 0])
        self.assertEqual([layout.level_at(at) for at in (0, 2, 4, 10, 2**70)], [0, None, 2, None, None])
        self.assertEqual([line.order for line in layout.lines], [[0, 4, 5], [6]])
        self.assertEqual((layout.index_of(2**70), layout.offset_of(2**70)), (5, 10))
        for asked in (layout.level_at, layout.index_of, layout.offset_of):
            with self.assertRaises(ValueError):
                asked(-1)

    def test_runs_of_removed(self):
        text = f"{BYTE_ORDER_MARK}a{ALEF}{JOINER}"
        for direction, expected in (
            (bidi.Direction.LTR, [(0, 4, 1, 0), (4, 2, 1, 1), (6, 3, 0, 0)]),
            (bidi.Direction.RTL, [(4, 5, 1, 1), (0, 4, 1, 2)]),
        ):
            (line,) = bidi.lay_out_utf8(text, all_tables(), direction).lines
            self.assertEqual(line.runs, [bidi.Run(*run) for run in expected])
        with unittest.mock.patch("bidi_proved.library.HAS_RUNS", False), self.assertRaises(NotImplementedError):
            line.runs  # pylint: disable=pointless-statement

    def test_other_lines(self):
        whole = bidi.lay_out_utf8(self.text, self.tables, bidi.Direction.RTL)
        broken = whole.set_lines([2, 6])
        self.assertEqual([(line.start, line.end) for line in broken.lines], [(0, 2), (2, 6), (6, 11)])
        self.assertEqual(broken.levels, bidi.lay_out_utf8(self.text, self.tables, 1, [2, 6]).levels)
        with self.assertRaises(bidi.StaleLayout):
            whole.levels  # pylint: disable=pointless-statement
        with self.assertRaises(bidi.BreakInside) as raised:
            broken.set_lines([2, 4])
        self.assertEqual((raised.exception.place, len(broken.lines)), (1, 3))
        self.assertEqual(broken.set_lines([]).levels, [2, 2, 1, 1, 1, 1, 1, 1, 1, 1, 2])

    def test_ill_formed(self):
        text = b"a\xf0\x9f\x98b\xff\xfe\xd7\x90\xe2\x82"
        with self.assertRaises(bidi.IllFormed) as raised:
            bidi.lay_out_utf8(text, self.tables)
        self.assertEqual(raised.exception.place, 1)
        layout = bidi.lay_out_utf8(text, self.tables, errors="replace", breaks=[4, 9])
        self.assertEqual([layout.offset_of(index) for index in range(8)], [0, 1, 4, 5, 6, 7, 9, 11])
        self.assertEqual([(line.start, line.end) for line in layout.lines], [(0, 4), (4, 9), (9, 11)])
        with self.assertRaises(bidi.BreakInside):
            layout.set_lines([10])
        with self.assertRaises(bidi.IllFormed):
            bidi.lay_out_utf8("a\ud800", self.tables)
        for errors in ("ignore", "", None):
            with self.assertRaises(ValueError) as raised:
                bidi.lay_out_utf8("a", self.tables, errors=errors)
            self.assertEqual(str(raised.exception), f'errors is "strict" or "replace", not {errors!r}')
        with self.assertRaises(TypeError) as raised:
            bidi.lay_out_utf8(5, self.tables)
        self.assertEqual(str(raised.exception), "a text in UTF-8 is a str or bytes, not int")

    def test_rejected_by_a_room(self):
        room = bidi.Utf8Room(11)
        earlier = room.lay_out(self.text, self.tables)
        for kind, text, named in (
            (bidi.TextTooLong, self.text + "a", {}),
            (bidi.IllFormed, b"\x80", {}),
            (bidi.BreakOutOfRange, self.text, {"breaks": [11]}),
            (bidi.BreakNotRising, self.text, {"breaks": [3, 3]}),
            (bidi.BreakInside, self.text, {"breaks": [4]}),
            (bidi.DepthRefused, self.text, {"limits": (0, 63)}),
        ):
            with self.assertRaises(kind):
                room.lay_out(text, self.tables, **named)
        self.assertEqual(earlier.levels, [0, 0, 0, 1, 1, 1, 1, 1, 1, 1, 2])
        with self.assertRaises(ValueError):
            bidi.Utf8Room(-1)
        with self.assertRaises(bidi.RoomTooBig):
            bidi.Utf8Room(16777217)


def properties(line):
    """Returns all properties of a line, except what is shown."""
    return line.start, line.end, line.levels, line.order, line.places, line.runs


@HAS_LINES
class Lines(unittest.TestCase):
    """Lines alone, places and paragraphs."""

    def setUp(self):
        self.tables = small_tables()
        self.text = f"a b\nc {ALEF}\u202c 1"
        self.layout = bidi.lay_out_utf8(self.text, self.tables, bidi.Direction.RTL)

    def test_places(self):
        first, second = self.layout.lines
        self.assertEqual((first.places, first.levels), ([1, 2, 3, 0], [2, 2, 2, 1]))
        self.assertEqual(second.places, [4, 3, 2, 2, None, None, None, 1, 0])

    def test_paragraphs(self):
        layout = bidi.lay_out_utf8(f"a\n{ALEF}", self.tables)
        self.assertEqual([layout.para_level_at(at) for at in (0, 1, 2, 3, 4, 2**70)], [0, 0, 1, 1, None, None])
        with self.assertRaises(ValueError):
            layout.para_level_at(-1)

    def test_line_alone(self):
        line = self.layout.line_of(0, 2)
        self.assertEqual((line.start, line.end, line.levels, line.order), (0, 2, [2, 1], [1, 0]))
        line = self.layout.line_of(4, 12)
        self.assertEqual((line.levels, line.order), ([2, 1, 1, 1, None, None, None, 1], [11, 6, 5, 4]))
        self.assertEqual(line.places, [3, 2, 1, 1, None, None, None, 0])
        self.assertEqual(line.runs, [bidi.Run(5, 7, 3, 1), bidi.Run(4, 1, 1, 2)])
        self.assertEqual((line.shown, line.display()), (f" {ALEF} c".encode(), f" {ALEF} c".encode()))

    def test_removed_positions_alone(self):
        line = self.layout.line_of(8, 11)
        self.assertEqual((line.levels, line.order, line.places), ([None] * 3, [], [None] * 3))
        self.assertEqual((line.runs, line.display()), ([bidi.Run(8, 3, 0, 1)], b""))

    def test_paragraph_separator(self):
        line = self.layout.line_of(1, 4)
        self.assertEqual((line.levels, line.shown, line.display()), ([2, 2, 1], b"\n b", b" b"))
        line = bidi.lay_out_utf8("a\u2029", all_tables()).line_of(0, 4)
        self.assertEqual((line.shown, line.display()), ("a\u2029".encode(), b"a"))

    def test_mirrored_characters(self):
        line = bidi.lay_out_utf8(f"{ALEF} (b", self.tables).line_of(0, 4)
        self.assertEqual(line.display(), f") {ALEF}".encode())

    def test_replaced(self):
        layout = bidi.lay_out_utf8(b"(\xd7\x90\xf0\x9f\x98)\xff", all_tables(), errors="replace")
        line = layout.line_of(0, 8)
        self.assertEqual((line.levels, line.order, line.places), ([1] * 8, [7, 6, 3, 1, 0], [4, 3, 3, 2, 2, 2, 1, 0]))
        self.assertEqual(line.shown, f"\ufffd(\ufffd{ALEF})".encode())

    def test_line_stays(self):
        room = bidi.Utf8Room(20)
        layout = room.lay_out(self.text, self.tables)
        line, (line_before, _) = layout.line_of(4, 13), layout.lines
        before, shown = properties(line), line.display()
        room.lay_out(f"{BET} 1", self.tables)
        self.assertEqual((properties(line), line.display()), (before, shown))
        for call in (lambda: layout.line_of(4, 13), lambda: layout.para_level_at(0), lambda: line_before.places):
            with self.assertRaises(bidi.StaleLayout):
                call()

    def check_rejected(self, kind, spans):
        before = [properties(line) for line in self.layout.lines]
        for span in spans:
            with self.assertRaises(kind, msg=span) as raised:
                self.layout.line_of(*span)
            self.assertIs(type(raised.exception), kind, span)
        self.assertEqual([properties(line) for line in self.layout.lines], before)

    def test_rejected(self):
        self.check_rejected(bidi.LineNotForward, [(0, 0), (3, 2), (13, 13), (99, 12), (0, -1), (7, 7), (2**64, 0)])
        self.check_rejected(bidi.LineBeyondText, [(7, 14), (13, 14), (0, 2**64), (-1, 2), (2**64, 2**65)])
        self.check_rejected(bidi.BreakInside, [(7, 8), (4, 7), (9, 13), (0, 7)])
        self.check_rejected(bidi.LineCrossesParagraph, [(0, 5), (3, 6), (0, 13)])

    def test_place_of_an_end_inside(self):
        for start, end, place in ((7, 8, 0), (7, 9, 0), (6, 7, 1), (0, 10, 1)):
            with self.assertRaises(bidi.BreakInside) as raised:
                self.layout.line_of(start, end)
            self.assertEqual(raised.exception.place, place)

    def test_older_library(self):
        (line, _) = self.layout.lines
        with unittest.mock.patch("bidi_proved.library.HAS_UTF8_LINE_OF", False):
            for call in (lambda: self.layout.line_of(0, 1), lambda: self.layout.para_level_at(0), lambda: line.places):
                with self.assertRaises(NotImplementedError):
                    call()


class Shown(unittest.TestCase):
    """Lines as they are shown."""

    @HAS_SHOWN
    def test_shown(self):
        layout = bidi.lay_out_utf8(f"({ALEF}\u202c) \u2264 1\na", all_tables(), breaks=[8])
        shown = [line.shown.decode() for line in layout.lines]
        self.assertEqual(shown, [f" ({ALEF})", "\n1 \u2265", "a"])
        self.assertEqual([line.decode() for line in layout.display()], [f" ({ALEF})", "1 \u2265", "a"])
        self.assertEqual(bidi.lay_out_utf8("", all_tables()).display(), [])

    @HAS_SHOWN
    def test_replaced(self):
        layout = bidi.lay_out_utf8(b"\xd7\x90\xff)\r\n\xe2\x82", all_tables(), errors="replace")
        self.assertEqual(layout.display(), [f"(\ufffd{ALEF}".encode(), b"", "\ufffd".encode()])

    def test_older_library(self):
        layout = bidi.lay_out_utf8("a", small_tables())
        with unittest.mock.patch("bidi_proved.library.HAS_UTF8_SHOWN", False):
            for call in (lambda: layout.lines[0].shown, layout.lines[0].display, layout.display):
                with self.assertRaises(NotImplementedError):
                    call()


@unittest.skipUnless(bidi.HAS_UTF8, "this library lays out no UTF-8")
class BesideCharacters(unittest.TestCase):
    """Each text has the same properties in offsets as in a layout of its characters."""

    def setUp(self):
        self.tables = all_tables()

    def check(self, encoded, characters, starts, breaks, **named):
        layout = bidi.lay_out_utf8(encoded, self.tables, breaks=[starts[at] for at in breaks], **named)
        other = bidi.lay_out(characters, self.tables, breaks=breaks)
        widths = [end - start for start, end in zip(starts, starts[1:])]
        levels = [level for level, width in zip(other.levels, widths) for _ in range(width)]
        self.assertEqual(layout.levels, levels)
        self.assertEqual(layout.paragraph_levels, other.paragraph_levels)
        for line, expected in zip(layout.lines, other.lines):
            self.assertEqual((line.start, line.end), (starts[expected.start], starts[expected.end]))
            self.assertEqual(line.order, [starts[at] for at in expected.order])
            runs = [
                bidi.Run(starts[run.start], starts[run.start + run.length] - starts[run.start], run.shown, run.level)
                for run in expected.runs
            ]
            self.assertEqual(line.runs, runs)
            self.check_line(layout, line, other, expected, widths)
        self.assertEqual(len(layout.lines), len(other.lines))

    def check_line(self, layout, line, other, expected, widths):
        """The properties of a line from the calls that not every library has."""
        if not library.HAS_UTF8_LINE_OF:
            return
        wide = widths[expected.start : expected.end]
        self.assertEqual(line.places, [place for place, width in zip(expected.places, wide) for _ in range(width)])
        alone = layout.line_of(line.start, line.end)
        self.assertEqual(properties(alone), properties(line))
        self.assertEqual((alone.shown, alone.display()), (expected.shown.encode(), expected.display().encode()))
        self.assertEqual(layout.para_level_at(line.end - 1), other.para_level_at(expected.end - 1))
        if library.HAS_UTF8_SHOWN:
            self.assertEqual((line.shown, line.display()), (alone.shown, alone.display()))

    def test_texts(self):
        for text in TEXTS:
            breaks = list(range(5, len(text), 7))
            self.check(text, text, starts_of(text), breaks)

    def test_replaced(self):
        for k, text in enumerate(TEXTS):
            pieces = [(part, 1) for part in text] + [(FAULTS[k % 5], 0)] + [(part, 1) for part in text[::2]]
            encoded = b"".join(part.encode("utf-8") if whole else part for part, whole in pieces)
            characters = encoded.decode("utf-8", "replace")
            starts = [0]
            for part, whole in pieces:
                wide = [len(part.encode("utf-8"))] if whole else [1, 1, 1] if part[:1] == b"\xed" else [len(part)]
                for width in wide:
                    starts.append(starts[-1] + width)
            self.check(encoded, characters, starts, [], errors="replace")
