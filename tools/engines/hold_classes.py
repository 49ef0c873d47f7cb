#!/usr/bin/env python3
"""Compares the classes that an engine gives all code points with DerivedBidiClass.txt.

usage: tools/engines/hold_classes.py TABLES COMMAND..

TABLES is a folder with that file; COMMAND runs the engine, which writes its classes with the word `--classes`, as
rows.h says. It prints which engine it is, and how many code points have another class: assigned ones, noncharacters,
and other unassigned ones. Assigned ones may differ because the engine's tables are of an older edition. Of each kind it
prints the widest ranges of such code points, with the right class and the engine's. It ends with 0.
"""
import collections
import pathlib
import re
import subprocess
import sys

CODES = 0x110000
MOST = 8
KINDS = ("assigned", "noncharacters", "other unassigned")
NAMES = {
    "Left_To_Right": "L", "Right_To_Left": "R", "Arabic_Letter": "AL", "European_Terminator": "ET",
    "Boundary_Neutral": "BN",
}
LINE = re.compile(r"^(# @missing: )?([0-9A-F]+)(?:\.\.([0-9A-F]+))?\s*;\s*(\w+)(?:\s*#\s*(\w\w|L&))?")


def read_classes(file):
    """The class of each code point by a file DerivedBidiClass.txt, and whether it is assigned."""
    classes, assigned = ["L"] * CODES, [False] * CODES
    for line in pathlib.Path(file).read_text(encoding="utf-8").splitlines():
        found = LINE.match(line)
        if not found:
            continue
        missing, first, last, name, category = found.groups()
        codes = range(int(first, 16), int(last or first, 16) + 1)
        classes[codes.start : codes.stop] = [NAMES[name] if missing else name] * len(codes)
        if not missing:
            assigned[codes.start : codes.stop] = [category != "Cn"] * len(codes)
    return classes, assigned


def classes_of(command):
    """The class that an engine gives each code point, `-` if it takes it for no character."""
    classes = ["-"] * CODES
    output = subprocess.run([*command, "--classes"], stdout=subprocess.PIPE, text=True, check=True).stdout
    for line in output.splitlines():
        codes, name = line.split(";")
        first, last = (int(code, 16) for code in codes.split(".."))
        classes[first : last + 1] = [name] * (last + 1 - first)
    return classes


def kind_of(code, assigned):
    """Of which kind a code point is."""
    if assigned[code]:
        return KINDS[0]
    return KINDS[1 if code & 0xFFFE == 0xFFFE or 0xFDD0 <= code <= 0xFDEF else 2]


def ranges(codes, right, made):
    """These rising code points as ranges: lists of first, last, and the right class and the made one of all."""
    found = []
    for code in codes:
        if found and found[-1][1:] == [code - 1, right[code], made[code]]:
            found[-1][1] = code
        else:
            found.append([code, code, right[code], made[code]])
    return found


def main():
    if len(sys.argv) < 3:
        sys.exit(__doc__)
    folder, *command = sys.argv[1:]
    right, assigned = read_classes(pathlib.Path(folder) / "DerivedBidiClass.txt")
    made = classes_of(command)
    others = collections.defaultdict(list)
    for code in range(CODES):
        if made[code] not in ("-", right[code]):
            others[kind_of(code, assigned)].append(code)
    version = subprocess.run([*command, "--version"], stdout=subprocess.PIPE, text=True, check=True).stdout.strip()
    counts = ", ".join(f"{len(others[kind])} {kind}" for kind in KINDS)
    print(f"{version}: {sum(map(len, others.values()))} code points have another class: {counts}")
    for kind in KINDS:
        found = sorted(ranges(others[kind], right, made), key=lambda one: one[0] - one[1])
        shown = (f"{first:04X}..{last:04X} {one} as {other}" for first, last, one, other in found[:MOST])
        if found:
            print(f"  {kind}: {', '.join(shown)}")


main()
