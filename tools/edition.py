#!/usr/bin/env python3
"""Writes the edition of Unicode of data/EDITION to every place of the repository that names it.

usage: tools/edition.py [--check]

PLACES has the files, and for each what is before the number there. A number keeps its form: 17.0.0, or 17.0. With
--check the script writes nothing. It names each place that has another edition, each text of PLACES that is nowhere in
its file, and in a clone each other file that names this edition after the word Unicode. It ends with 0 if there is none
of these, else with 1. tools/standard_tables.py writes the constants of `standard`; here they are only compared. Run
tools/draw_crates.py after a change: it draws docs/crates.svg. A stored output with the number is written too.
"""
import pathlib
import re
import subprocess
import sys

TOP = pathlib.Path(__file__).resolve().parent.parent
EDITION = (TOP / "data/EDITION").read_text(encoding="utf-8").strip()
# A name may continue in the next line of a text, and of a string in Rattle.
UNICODE = r"Unicode[ \n\\]+"
WHOLE = r"(?=\d+\.\d+\.\d)"
AS_EXAMPLE = r'(?:such )?as ["`]?'
PLACES = {
    "NOTICES": ["data/unicode-"],
    "README.md": [UNICODE],
    "c/bidi.h": ['#define BIDI_EDITION "' + WHOLE, "`text`, as "],
    "c/calls.out": [UNICODE],
    "crates/bidi_c/src/tables_calls.rt": ["edition that is built in to `text`, if it fits there, " + AS_EXAMPLE],
    "crates/command/src/help.rt": [UNICODE],
    "crates/transcript_rows/data/arguments.txt": [UNICODE],
    "docs/ARCHITECTURE.md": ["constants of " + UNICODE, r"`standard` \| the tables of " + UNICODE],
    "docs/C.md": ["linked library, " + AS_EXAMPLE + r"(?=\S+; `BIDI_EDITION`)"],
    "docs/COMMAND.md": [UNICODE],
    "docs/DEFINITIONS.md": ["built-in bytes of " + UNICODE],
    "docs/PROVED.md": ["are those of " + UNICODE],
    "docs/PYTHON.md": ["of these, " + AS_EXAMPLE],
    "docs/RUST.md": ["built in, " + AS_EXAMPLE],
    "docs/bidi.1": [UNICODE],
    "docs/crates_drawing.txt": [r"\nstandard \|[^\n]* " + UNICODE],
    "python/bidi_proved/tables.py": [AS_EXAMPLE],
    "rust/bidi-proved/src/lib.rs": ["that library, " + AS_EXAMPLE],
    "tools/check_program.sh": [UNICODE],
    "tools/help.out": [UNICODE],
}
# Written by tools/standard_tables.py.
WRITTEN = {
    "crates/standard/src/facts.rt": [UNICODE, 'EDITION: &str = "'],
    "crates/standard/src/brackets.rt": [UNICODE],
    "crates/standard/src/classes.rt": [UNICODE],
    "crates/standard/src/mirrors.rt": [UNICODE],
}
# They speak of an edition that stays, or are Unicode's own, or drawn.
OTHERS = ("CHANGELOG.md", "data/", "docs/DECISIONS.md", "docs/MEASURED.md", "docs/PERF.md", "docs/crates.svg")
NUMBER = r"\d+\.\d+(?:\.\d+)?(?![\d.]*\d)"


def in_form(number):
    """Returns the edition with as many parts as this number has."""
    return ".".join(EDITION.split(".")[: number.count(".") + 1])


def renewed(text, before):
    """Returns the text with the edition at each of its places, and what the places had."""
    found = []

    def put(match):
        found.append(match)
        return match[1] + in_form(match[2])

    return re.sub(f"({before})({NUMBER})", put, text), found


def line_of(text, match):
    """Returns the line of the number."""
    return text.count("\n", 0, match.start(2)) + 1


def unlisted():
    """Returns the files that name this edition after the word Unicode, and aren't listed above."""
    pattern = rf"Unicode {re.escape(in_form('0.0'))}([^0-9]|$)"
    words = ["git", "grep", "-lIE", pattern]
    named = subprocess.run(words, cwd=TOP, capture_output=True, check=False, encoding="utf-8").stdout.split("\n")
    known = {*PLACES, *WRITTEN}
    return [name for name in named if name and name not in known and not name.startswith(OTHERS)]


def main(words):
    if words not in ([], ["--check"]):
        sys.exit(__doc__.split("\n\n")[1])
    if not re.fullmatch(r"\d+\.\d+\.\d+", EDITION):
        sys.exit(f"data/EDITION is no edition: '{EDITION}'")
    checks, wrong, places = bool(words), [], 0
    for name, patterns in {**PLACES, **WRITTEN}.items():
        text = whole = (TOP / name).read_text(encoding="utf-8")
        for before in patterns:
            made, found = renewed(text, before)
            places += len(found)
            if not found:
                wrong.append(f"{name}: no number after `{before}`")
            if checks or name in WRITTEN:
                others = [it for it in found if it[2] != in_form(it[2])]
                wrong += [f"{name}:{line_of(text, it)}: {it[2]}, and data/EDITION has {EDITION}" for it in others]
            else:
                text = made
        if text != whole:
            (TOP / name).write_text(text, encoding="utf-8")
            print(f"written: {name}")
    wrong += [f"{name}: it names the edition, and PLACES lacks it" for name in unlisted()]
    print("\n".join(wrong) or f"edition {EDITION}, in {places} places of {len(PLACES) + len(WRITTEN)} files")
    return int(bool(wrong))


if __name__ == "__main__":
    sys.exit(main(sys.argv[1:]))
