"""Tests of bidi_proved: `python3 -m unittest` in the folder python, with BIDI_LIBRARY naming the shared object."""
import pathlib

import bidi_proved as bidi

TOP = pathlib.Path(__file__).resolve().parents[2]
EDITION = (TOP / "data/EDITION").read_text().strip()
PUBLISHED = TOP / f"data/unicode-{EDITION}"
TEST_FILES = pathlib.Path("/usr/share/unicode")


def small_tables():
    """Tables of the few characters in c/ucd."""
    return bidi.Tables.read(TOP / "c/ucd")


def all_tables():
    """Returns tables of all characters: those that are built in, or else the published ones."""
    return bidi.Tables.standard() if bidi.HAS_STANDARD_TABLES else bidi.Tables.read(PUBLISHED)
