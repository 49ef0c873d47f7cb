"""Arguments of calls: tables and directions left out or by name, bytes for a str; properties; and texts for people."""
import pathlib
import unittest
import unittest.mock
import warnings

import bidi_proved as bidi
from bidi_proved import library

from . import all_tables, small_tables

ALEF, BET = "\u05d0\u05d1"
HAS_BUILT_IN = unittest.skipUnless(bidi.HAS_STANDARD_TABLES, "no tables built in")


class Calls(unittest.TestCase):
    @HAS_BUILT_IN
    def test_built_in_tables_where_none_are_given(self):
        tables = bidi.Tables.standard()
        text = f"{ALEF} (a) 1\n\u0627b"
        self.assertEqual(bidi.lay_out(text).levels, bidi.lay_out(text, tables).levels)
        self.assertEqual(bidi.lay_out_utf8(text).levels, bidi.lay_out_utf8(text, tables).levels)
        self.assertEqual(bidi.display(text), bidi.display(text, tables))
        self.assertEqual(bidi.base_levels(text), [1, 1])
        self.assertEqual((bidi.base_level(text), bidi.is_left_to_right(text)), (1, False))
        if library.HAS_UTF8_BASE_LEVELS:
            self.assertEqual(bidi.base_levels_utf8(text), [1, 1])
            self.assertEqual((bidi.base_level_utf8(text), bidi.is_left_to_right_utf8(text)), (1, False))
        row = b"05D0 ; 2 ; 1 ; 1 ; 0\n"
        self.assertTrue(bidi.judge_characters(row))
        self.assertEqual(list(bidi.report_characters(row)), [])

    def test_directions_by_name(self):
        tables = small_tables()
        for name, direction in (("rtl", bidi.Direction.RTL), ("LTR", bidi.Direction.LTR),
                                ("auto", bidi.Direction.AUTO), ("auto-rtl", bidi.Direction.AUTO_RTL)):
            found = bidi.lay_out("1 a", tables, direction=name)
            self.assertEqual(found.levels, bidi.lay_out("1 a", tables, direction).levels, name)
        self.assertEqual(bidi.lay_out_classes(["EN"], "auto_rtl").levels, [2])
        with self.assertRaises(ValueError):
            bidi.lay_out("a", tables, "right")

    def test_bytes_are_rejected(self):
        """The message names the call that takes bytes."""
        tables = small_tables()
        for call, utf8_call in (
            (bidi.lay_out, "lay_out_utf8"), (bidi.display, "lay_out_utf8"), (bidi.Room(2).lay_out, "Utf8Room.lay_out"),
            (bidi.base_level, "base_level_utf8"), (bidi.base_levels, "base_levels_utf8"),
            (bidi.is_left_to_right, "is_left_to_right_utf8"),
        ):
            with self.assertRaises(TypeError) as raised:
                call(b"ab", tables)
            self.assertEqual(str(raised.exception), f"a text is a str, not bytes: {utf8_call} takes bytes of UTF-8")

    def test_other_words_for_tables(self):
        """The message says how a direction is passed."""
        room, utf8_room = bidi.Room(2), bidi.Utf8Room(2)
        earlier = room.lay_out("a", small_tables())
        calls = [
            bidi.lay_out, bidi.display, bidi.lay_out_utf8, room.lay_out, utf8_room.lay_out, bidi.base_level,
            bidi.base_levels, bidi.is_left_to_right, bidi.judge_characters, bidi.report_characters,
            lambda _, tables: bidi.Judge(tables), lambda _, tables: bidi.Report(tables),
        ]
        if library.HAS_UTF8_BASE_LEVELS:
            calls += [bidi.base_level_utf8, bidi.base_levels_utf8, bidi.is_left_to_right_utf8]
        for call in calls:
            for other, kind in (("rtl", "str"), (1, "int"), (bidi.Direction.RTL, "Direction"), (bidi.Tables, "type")):
                with self.assertRaises(TypeError) as raised:
                    call("", other)
                message = f"tables are a Tables or None, not {kind}: a direction is passed as direction="
                self.assertEqual(str(raised.exception), message)
        self.assertEqual(earlier.levels, [0])

    def test_levels_of_a_line(self):
        tables = small_tables()
        layout = bidi.lay_out(f"ab\n{ALEF}{BET}", tables)
        self.assertEqual([line.levels for line in layout.lines], [[0, 0, 0], [1, 1]])
        layout = bidi.lay_out_utf8(f"ab\n{ALEF}{BET}", tables)
        self.assertEqual([line.levels for line in layout.lines], [[0, 0, 0], [1, 1, 1, 1]])

    def test_levels_are_copied_once(self):
        """The levels of all lines take linear time."""
        for name, lay_out in (("bidi_levels", bidi.lay_out), ("bidi_encoded_levels", bidi.lay_out_utf8)):
            layout = lay_out(f"a\n{ALEF}\nb", small_tables())
            with unittest.mock.patch.object(library.CALL, name, wraps=getattr(library.CALL, name)) as call:
                levels = [level for line in layout.lines for level in line.levels]
                self.assertEqual(levels, layout.levels)
            # The first call returns how many levels there are, and the second writes them.
            self.assertEqual(call.call_count, 2)
            layout.set_lines([])
            with self.assertRaises(bidi.StaleLayout):
                layout.levels  # pylint: disable=pointless-statement

    @HAS_BUILT_IN
    def test_properties_of_characters(self):
        tables = bidi.Tables.standard()
        found = [tables.class_of(character) for character in f"a{ALEF}\u06271 \t\u2067\u00ad"]
        self.assertEqual(found, ["L", "R", "AL", "EN", "WS", "S", "RLI", "BN"])
        found = [tables.bracket_of(character) for character in "(]a"]
        self.assertEqual(found, [bidi.Bracket.OPENING, bidi.Bracket.CLOSING, bidi.Bracket.NONE])
        for call in (tables.class_of, tables.bracket_of):
            with self.assertRaises(bidi.NoCharacter):
                call("\ud800")

    def test_separators(self):
        """Whether a character ends a paragraph: by its class or, in an older library, by a layout of two characters."""
        characters = "\n\r\x1c\x85\u2029\u2028a \t"
        with unittest.mock.patch("bidi_proved.layout.lay_out", side_effect=AssertionError):
            tables = all_tables()
            found = [tables._separates(character) for character in characters]
        self.assertEqual(found, [True] * 5 + [False] * 4)
        with unittest.mock.patch("bidi_proved.library.HAS_PROPERTIES", False):
            tables = all_tables()
            self.assertEqual([tables._separates(character) for character in characters], found)
            with self.assertRaises(NotImplementedError):
                tables.class_of("a")

    def test_texts_for_people(self):
        tables = small_tables()
        layout, utf8 = bidi.lay_out("ab", tables), bidi.lay_out_utf8("ab", tables)
        objects = (
            bidi.Room(3), layout, layout.lines[0], layout.line_of(0, 1), bidi.Utf8Room(3), utf8, utf8.lines[0], tables)
        texts = [repr(it) for it in objects]
        self.assertEqual(texts, [
            "Room(3)", "<Layout of 2 positions>", "<Line from 0 to 2>", "<LineAlone from 0 to 1>", "Utf8Room(3)",
            "<Utf8Layout of 2 bytes>", "<Utf8Line from 0 to 2>", "<Tables of three property files>"])
        if library.HAS_UTF8_LINE_OF:
            self.assertEqual(repr(utf8.line_of(0, 1)), "<Utf8LineAlone from 0 to 1>")

    def test_old_names(self):
        for lay_out in (bidi.lay_out, bidi.lay_out_utf8):
            layout = lay_out("ab", small_tables())
            with warnings.catch_warnings(record=True) as warned:
                warnings.simplefilter("always")
                broken = layout.with_lines([1])
            self.assertEqual([it.category for it in warned], [DeprecationWarning])
            self.assertEqual(len(broken.lines), 2)

    def test_types_are_marked(self):
        self.assertTrue(pathlib.Path(bidi.__file__).with_name("py.typed").exists())
