"""python-bidi's functions over the library: worked texts; drawn texts with what python-bidi shows of them, as stored
and if it is installed; and python-bidi's own tests if PYTHON_BIDI names a folder with its source."""
import concurrent.futures
import contextlib
import io
import os
import pathlib
import subprocess
import sys
import unittest

import bidi_proved as bidi
from bidi_proved import algorithm
from bidi_proved.algorithm import get_base_level, get_display

from . import TOP, peer
from .test_pairs import ALEF, BET, CONTROLS, PAIRS

# A program that runs python-bidi's own tests. Its arguments are folders: with the package `bidi`, and with the tests.
SUITE = """
import importlib.util, pathlib, sys, unittest
sys.path.insert(0, sys.argv[1])
suite = unittest.TestSuite()
for file in sorted(pathlib.Path(sys.argv[2]).rglob("test*.py")):
    spec = importlib.util.spec_from_file_location(file.stem, file)
    module = importlib.util.module_from_spec(spec)
    spec.loader.exec_module(module)
    suite.addTests(unittest.defaultTestLoader.loadTestsFromModule(module))
result = unittest.TextTestRunner().run(suite)
sys.exit(0 if result.wasSuccessful() and result.testsRun else 1)
"""


@unittest.skipUnless(bidi.HAS_STANDARD_TABLES, "this library has no tables built in")
class Worked(unittest.TestCase):
    def check(self, text, shown, **named):
        self.assertEqual(get_display(text, **named), shown, ascii(text))

    def test_capitals(self):
        for text, shown in PAIRS:
            for name, control in CONTROLS.items():
                text = text.replace(name, control)
            self.check(text, shown, upper_is_rtl=True)

    def test_bytes(self):
        self.check(b"\xf9\xec\xe5\xed", b"\xed\xe5\xec\xf9", encoding="cp1255")
        self.check(f"{ALEF}b".encode("utf-8"), f"b{ALEF}".encode("utf-8"))
        with self.assertRaises(UnicodeDecodeError):
            get_display(b"\xff")

    def test_direction(self):
        self.check("SHALOM:", "MOLAHS:", upper_is_rtl=True, base_dir="L")
        self.check("SHALOM:", ":MOLAHS", upper_is_rtl=True)
        self.check("a:", ":a", base_dir="R")
        with self.assertRaises(KeyError):
            get_display("a", base_dir="r")

    def test_base_level(self):
        for text, level in (("", 0), ("12", 0), (f"1 {ALEF}a", 1), (f"a{ALEF}", 0), (f"1\n{ALEF}", 1), ("1\n2\na", 0)):
            self.assertEqual(get_base_level(text), level, ascii(text))
        self.assertEqual((get_base_level("Ab"), get_base_level("Ab", upper_is_rtl=True)), (0, 1))
        self.assertEqual(get_base_level(f"\u2067{ALEF}\u2069a"), 0)

    def test_paragraphs(self):
        self.check(f"{ALEF}{BET} c\na {BET}", f"c {BET}{ALEF}\n{BET} a")
        self.check(f"a\r\n{ALEF}{BET}\n", f"a\r\n{BET}{ALEF}\n")
        self.check("", "")
        self.check("\n\n", "\n\n")

    def test_what_python_bidi_has_no_rules_for(self):
        self.check("(a)a", "a(a)", base_dir="R")
        self.check(f"a \u2067{ALEF} {BET}\u2069 b", f"a \u2067{BET} {ALEF}\u2069 b")
        self.check("\u0378", "\u0378")

    def test_halves_of_pairs(self):
        self.check(f"{ALEF}\ud800{BET}\udfff", f"\udfff{BET}\ud800{ALEF}")

    def test_long_text(self):
        text = (ALEF + BET) * 40000
        self.assertTrue(get_display(text) == text[::-1])
        self.check(ALEF + "b", "b" + ALEF)

    def test_debug(self):
        written = io.StringIO()
        with contextlib.redirect_stderr(written):
            self.check(f"{ALEF}1", f"1{ALEF}", debug=True)
        self.assertEqual(written.getvalue(), "base level 1, levels [1, 2]\n")

    def test_threads(self):
        texts = [f"{ALEF}{BET} {number} a" for number in range(400)]
        with concurrent.futures.ThreadPoolExecutor(4) as pool:
            shown = list(pool.map(get_display, texts))
        self.assertEqual(shown, [f"a {number} {BET}{ALEF}" for number in range(400)])


@unittest.skipUnless(bidi.HAS_STANDARD_TABLES, "this library has no tables built in")
class AsPythonBidi(unittest.TestCase):
    """Texts without brackets and isolates."""

    def test_stored(self):
        cases = peer.stored()
        self.assertEqual([case for case, _ in cases], peer.drawn(peer.STORED))
        for case, shown in cases:
            self.assertEqual(peer.shown_by(algorithm, *case), shown, ascii(case))

    def test_installed(self):
        try:
            from bidi import algorithm as installed
        except ImportError:
            self.skipTest("no python-bidi (package python3-bidi): what it shows is compared as stored alone")
        for case, shown in peer.stored():
            self.assertEqual(peer.shown_by(installed, *case), shown, ascii(case))
        for case in peer.drawn(peer.TEXTS):
            self.assertEqual(peer.shown_by(algorithm, *case), peer.shown_by(installed, *case), ascii(case))
            base_dir, upper_is_rtl, text = case
            named = {"encoding": "utf-16", "upper_is_rtl": upper_is_rtl, "base_dir": base_dir}
            item = text.encode("utf-16")
            self.assertEqual(get_display(item, **named), installed.get_display(item, **named), ascii(case))


class OwnTests(unittest.TestCase):
    """python-bidi's own tests, with a package `bidi` over this module in place of python-bidi's."""

    def test_suite(self):
        source = os.environ.get("PYTHON_BIDI")
        if not source:
            self.skipTest("PYTHON_BIDI names no source of python-bidi: its own tests are not run")
        path = os.pathsep.join([str(TOP / "python"), *filter(None, [os.environ.get("PYTHONPATH")])])
        stand_in = pathlib.Path(__file__).with_name("stand_in")
        done = subprocess.run(
            [sys.executable, "-B", "-c", SUITE, str(stand_in), source], capture_output=True, timeout=120, check=False,
            env={**os.environ, "PYTHONPATH": path, "PYTHONIOENCODING": "utf-8"},
        )
        self.assertEqual(done.returncode, 0, done.stderr.decode())
