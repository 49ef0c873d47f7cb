"""What is known of a text without a layout, and the version of the library."""
import unittest
import unittest.mock

import bidi_proved as bidi
from bidi_proved import library

from . import all_tables, small_tables
from .test_many import TEXTS

ALEF, ARABIC_ONE = "\u05d0\u0661"


class BaseLevel(unittest.TestCase):
    def setUp(self):
        self.tables = small_tables()

    def test_directions(self):
        rows = (("a", [0, 1, 0, 0]), (ALEF, [0, 1, 1, 1]), ("12", [0, 1, 0, 1]), ("", [0, 1, 0, 1]))
        for text, levels in rows:
            found = [bidi.base_level(text, self.tables, direction) for direction in bidi.Direction]
            self.assertEqual(found, levels, text)
        self.assertEqual(bidi.base_level(ALEF, self.tables), 1)

    def test_first_paragraph(self):
        self.assertEqual(bidi.base_level(f"1\n{ALEF}", self.tables), 0)
        self.assertEqual(bidi.base_level(f"1 {ALEF}\na", self.tables), 1)

    def test_isolates(self):
        self.assertEqual(bidi.base_level(f"\u2067{ALEF}\u2069a", all_tables()), 0)
        self.assertEqual(bidi.base_level(f"\u2067a\u2069{ALEF}", all_tables()), 1)

    def test_beside_layouts(self):
        for text in filter(None, TEXTS):
            for direction in bidi.Direction:
                (level, *_) = bidi.lay_out(text, self.tables, direction).paragraph_levels
                self.assertEqual(bidi.base_level(text, self.tables, direction), level, ascii(text))


class BaseLevels(unittest.TestCase):
    def setUp(self):
        self.tables = small_tables()

    def test_directions(self):
        rows = (
            (f"a\n{ALEF}\n1", [[0, 0, 0], [1, 1, 1], [0, 1, 0], [0, 1, 1]]),
            ("\n\n", [[0, 0], [1, 1], [0, 0], [1, 1]]),
        )
        for text, levels in rows:
            found = [bidi.base_levels(text, self.tables, direction) for direction in bidi.Direction]
            self.assertEqual(found, levels, ascii(text))
        self.assertEqual(bidi.base_levels(f"{ALEF}\na", self.tables), [1, 0])
        self.assertEqual(bidi.base_levels("", self.tables), [])

    def test_isolates(self):
        self.assertEqual(bidi.base_levels(f"\u2067{ALEF}\u2069a\n\u2067{ALEF}\u2029{ALEF}", all_tables()), [0, 0, 1])

    def test_beside_layouts(self):
        for text in filter(None, TEXTS):
            for direction in bidi.Direction:
                levels = bidi.lay_out(text, self.tables, direction).paragraph_levels
                self.assertEqual(bidi.base_levels(text, self.tables, direction), levels, ascii(text))


class LeftToRight(unittest.TestCase):
    def setUp(self):
        self.tables = small_tables()

    def test_classes(self):
        tables = all_tables()
        for text in ("", "ab (12)\n\u2029+-", "\u202c\u2069\u00ad", "\u0301\U0001f600"):
            self.assertIs(bidi.is_left_to_right(text, tables), True, ascii(text))
        for it in (ALEF, "\u0627", ARABIC_ONE, *"\u202a\u202b\u202d\u202e\u2066\u2067\u2068"):
            self.assertIs(bidi.is_left_to_right(f"ab {it} c", tables), False, ascii(it))

    def test_beside_layouts(self):
        stays = [text for text in [*TEXTS, "a\u202cb"] if bidi.is_left_to_right(text, self.tables)]
        self.assertGreater(len(stays), 20)
        for text in stays:
            for direction in (bidi.Direction.LTR, bidi.Direction.AUTO):
                self.assertLessEqual(set(bidi.lay_out(text, self.tables, direction).levels), {0, None}, ascii(text))


@unittest.skipUnless(library.HAS_UTF8_BASE_LEVELS, "this library says nothing of UTF-8 without a layout")
class Utf8(unittest.TestCase):
    """A text in UTF-8 has the same properties as its characters."""

    def setUp(self):
        self.tables = small_tables()

    def test_beside_characters(self):
        for text in [*TEXTS, "", f"\n{ALEF}\n1", "a\u202cb"]:
            encoded = text.encode()
            for direction in bidi.Direction:
                level = bidi.base_level(text, self.tables, direction)
                self.assertEqual(bidi.base_level_utf8(encoded, self.tables, direction), level, ascii(text))
                levels = bidi.base_levels(text, self.tables, direction)
                self.assertEqual(bidi.base_levels_utf8(encoded, self.tables, direction), levels, ascii(text))
            stays = bidi.is_left_to_right(text, self.tables)
            self.assertIs(bidi.is_left_to_right_utf8(encoded, self.tables), stays, ascii(text))

    def test_what_a_text_may_be(self):
        for text in (f"1\n{ALEF}", bytearray(f"1\n{ALEF}".encode()), memoryview(f"1\n{ALEF}".encode())):
            self.assertEqual(bidi.base_levels_utf8(text, self.tables, "auto-rtl"), [1, 1])
            self.assertEqual(bidi.base_level_utf8(text, self.tables), 0)
            self.assertIs(bidi.is_left_to_right_utf8(text, self.tables), False)

    def test_ill_formed(self):
        for call in (bidi.base_level_utf8, bidi.base_levels_utf8, bidi.is_left_to_right_utf8):
            for text, place in ((b"a\xff", 1), (f"{ALEF}\n\ud800", 3), (b"\xd7", 0)):
                with self.assertRaises(bidi.IllFormed) as raised:
                    call(text, self.tables)
                self.assertEqual(raised.exception.place, place)

    def test_no_direction(self):
        for call in (bidi.base_level_utf8, bidi.base_levels_utf8):
            with self.assertRaises(ValueError):
                call(b"a", self.tables, 4)

    def test_older_library(self):
        with unittest.mock.patch("bidi_proved.library.HAS_UTF8_BASE_LEVELS", False):
            for call in (bidi.base_level_utf8, bidi.base_levels_utf8, bidi.is_left_to_right_utf8):
                with self.assertRaises(NotImplementedError):
                    call(b"a", self.tables)


class Rejected(unittest.TestCase):
    def setUp(self):
        self.tables = small_tables()

    def test_no_character(self):
        for call in (bidi.base_level, bidi.base_levels, bidi.is_left_to_right):
            for text, place in (("a\ud800", 1), (f"\n{ALEF}b\udfff\ud800", 3)):
                with self.assertRaises(bidi.NoCharacter) as raised:
                    call(text, self.tables)
                self.assertEqual(raised.exception.place, place)

    def test_no_direction(self):
        for call in (bidi.base_level, bidi.base_levels):
            with self.assertRaises(ValueError):
                call("a", self.tables, 4)

    def test_older_library(self):
        with unittest.mock.patch("bidi_proved.library.HAS_BASE_LEVEL", False):
            for call in (bidi.base_level, bidi.is_left_to_right):
                with self.assertRaises(NotImplementedError):
                    call("a", self.tables)
        with unittest.mock.patch("bidi_proved.library.HAS_BASE_LEVELS", False), self.assertRaises(NotImplementedError):
            bidi.base_levels("a", self.tables)


class Version(unittest.TestCase):
    def test_version(self):
        self.assertEqual(bidi.version(), bidi.__version__)

    def test_older_library(self):
        with unittest.mock.patch("bidi_proved.library.CALL", object()):
            self.assertIsNone(bidi.version())
