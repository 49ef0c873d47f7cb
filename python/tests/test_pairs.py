"""Texts with what python-bidi shows of them, and beside python-bidi if it is installed."""
import unittest

import bidi_proved as bidi

from . import all_tables

ALEF, BET = "\u05d0\u05d1"

# Each text with what python-bidi 0.4.2 shows. Capitals stand for Hebrew letters in the order of their code points, and
# an underscore with a letter for a control: _l LRE, _r RLE, _L LRO, _R RLO, _o PDF.
PAIRS = [
    ("car is THE CAR in arabic", "car is RAC EHT in arabic"),
    ("CAR IS the car IN ENGLISH", "HSILGNE NI the car SI RAC"),
    ('he said "IT IS 123, 456, OK"', 'he said "KO ,456 ,123 SI TI"'),
    ('he said "IT IS (123, 456), OK"', 'he said "KO ,(456 ,123) SI TI"'),
    ('he said "IT IS 123,456, OK"', 'he said "KO ,123,456 SI TI"'),
    ('he said "IT IS (123,456), OK"', 'he said "KO ,(123,456) SI TI"'),
    ('HE SAID "it is 123, 456, ok"', '"it is 123, 456, ok" DIAS EH'),
    ("<H123>shalom</H123>", "<123H/>shalom<123H>"),
    ("<h123>SAALAM</h123>", "<h123>MALAAS</h123>"),
    ('HE SAID "it is a car!" AND RAN', 'NAR DNA "!it is a car" DIAS EH'),
    ('HE SAID "it is a car!x" AND RAN', 'NAR DNA "it is a car!x" DIAS EH'),
    ("SOLVE 1*5 1-5 1/5 1+5", "1+5 1/5 1-5 5*1 EVLOS"),
    ("THE RANGE IS 2.5..5", "5..2.5 SI EGNAR EHT"),
    ("-2 CELSIUS IS COLD", "DLOC SI SUISLEC 2-"),
    ("this is _LJUST_o", "this is JUST"),
    ("a _lsimple _RteST_o th_oat", "a simple TSet that"),
    ("HAS A _LPDF missing", "PDF missing A SAH"),
    ("AnD hOw_L AbOuT, 123,987 tHiS_o", "w AbOuT, 123,987 tHiSOh DnA"),
    ("a GOOD - _L_oTEST.", "a TSET - DOOG."),
    ("here_L is_o_o_o _R a good one_o", "here is eno doog a "),
    ("THE _rbest _lONE and", "best ENO and EHT"),
    ("A REAL BIG_l_o BUG!", "!GUB GIB LAER A"),
    ("a _L_L_rBUG", "a GUB"),
    ("AN ARABIC _l_o 123-456 NICE ONE!", "!ENO ECIN 123-456  CIBARA NA"),
    ("AN ARABIC _l _o 123-456 PAIR", "RIAP   123-456 CIBARA NA"),
    ("this bug 67_r_o89 catched!", "this bug 6789 catched!"),
]
CONTROLS = {"_l": "\u202a", "_r": "\u202b", "_o": "\u202c", "_L": "\u202d", "_R": "\u202e"}


def in_hebrew(text):
    """Returns the text with a Hebrew letter for each capital, and a control for each underscore with its letter."""
    for name, control in CONTROLS.items():
        text = text.replace(name, control)
    return "".join(chr(ord(ALEF) + ord(it) - ord("A")) if "A" <= it <= "Z" else it for it in text)


class Pairs(unittest.TestCase):
    def setUp(self):
        self.tables = all_tables()

    def test_pairs(self):
        for text, shown in PAIRS:
            self.assertEqual(bidi.display(in_hebrew(text), self.tables), [in_hebrew(shown)], text)

    def test_beside_python_bidi(self):
        """Texts without isolates and brackets that N0 decides, whose rules some editions of python-bidi lack."""
        try:
            from bidi.algorithm import get_display
        except ImportError:
            self.skipTest("no python-bidi (package python3-bidi)")
        texts = [
            f"car {ALEF}{BET} 12, 3", f"{ALEF}{BET} is a word", f"{ALEF} 12 - 13% {BET}", f"\u0627 12, 3 \u0628 a",
            f"he said {ALEF}{BET} 123, 456, {BET} ok", f"\u202b{ALEF}b\u202c c {BET}", f"{ALEF}\u202ab{BET}\u202c!",
        ]
        for text in texts + [in_hebrew(it) for it, _ in PAIRS]:
            self.assertEqual(bidi.display(text, self.tables), [get_display(text)], ascii(text))
