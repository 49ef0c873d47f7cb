#!/usr/bin/env python3
"""Draws the crates: docs/crates.svg, from crates.txt (which crate depends on which) and docs/crates_drawing.txt (the
column of a crate, what it does and what it provides).

A crate is a row below the lowest of those that it depends on. An arrow leads to a crate from each on which it depends,
except from those on which it depends through a third one. The script stops if a crate of crates.txt has no line, or a
line has no crate, or a box or an arrow would cover a box.

usage: tools/draw_crates.py [--check]      (--check: writes nothing, and ends with 1 if the drawing is not the one that
would be written)
"""

import pathlib
import sys
import textwrap
from xml.sax.saxutils import escape

TOP = pathlib.Path(__file__).resolve().parent.parent
WIDTH, GAP, LINE, MARGIN, BETWEEN = 236, 28, 15, 20, 46
CHARACTERS = 37
FILLS = {
    "base": "#fff4d6",
    "lemmas": "#f3e8f7",
    "engine": "#e3f0fb",
    "files": "#e6f5e6",
    "uses": "#eef1f4",
    "program": "#fbe7e3",
    "tests": "#f7f7f7",
}


def read_crates():
    """Returns the crates that each crate of the repository depends on."""
    crates = {}
    for line in (TOP / "crates.txt").read_text().splitlines():
        if line.strip() and not line.startswith("#"):
            head, below = line.split(":")
            crates[head.split()[0]] = below.split()
    return {name: [low for low in below if low in crates] for name, below in crates.items()}


def read_notes():
    """Returns the column and the kind of each crate, what it does and what it provides."""
    notes = {}
    for line in (TOP / "docs/crates_drawing.txt").read_text().splitlines():
        if line.strip() and not line.startswith("#"):
            name, column, kind, does, gives = (field.strip() for field in line.split("|"))
            notes[name] = (float(column), kind, does, gives)
    return notes


def all_below(crates, name):
    """Returns all crates that a crate depends on, through others too."""
    found = set()
    for low in crates[name]:
        found |= {low} | all_below(crates, low)
    return found


def arrows_of(crates):
    """Returns the pairs of a crate and one that depends on it, but not through a third one."""
    for name, below in crates.items():
        for low in below:
            if not any(low in all_below(crates, other) for other in below):
                yield low, name


def row_of(crates, name):
    """Returns the row of a crate: one below the lowest of those that it depends on."""
    return max((row_of(crates, low) + 1 for low in crates[name]), default=0)


def words_of(note):
    """Returns the lines of a box below its name: what the crate does, and what it provides."""
    _, _, does, gives = note
    lines = [(line, "does") for line in textwrap.wrap(does, CHARACTERS)]
    return lines + [(line, "gives") for line in textwrap.wrap("\u2192 " + gives, CHARACTERS) if gives]


def place(crates, notes):
    """Returns the boxes by name: left, top, width, height."""
    rows = {name: row_of(crates, name) for name in crates}
    leftmost = min(note[0] for note in notes.values())
    boxes, top = {}, MARGIN
    for row in range(max(rows.values()) + 1):
        heights = {name: 28 + LINE * len(words_of(notes[name])) for name in crates if rows[name] == row}
        for name, height in heights.items():
            boxes[name] = (MARGIN + (notes[name][0] - leftmost) * (WIDTH + GAP), top, WIDTH, height)
        top += max(heights.values()) + BETWEEN
    return boxes


def covers(a, b):
    """Returns whether two boxes have a point in common."""
    return a[0] < b[0] + b[2] and b[0] < a[0] + a[2] and a[1] < b[1] + b[3] and b[1] < a[1] + a[3]


def route(boxes, low, name):
    """Returns the way of an arrow: straight down in its own column, and then over to the crate's."""
    left, top, width, height = boxes[low]
    x, y = left + width / 2, top + height
    to_x, to_y = boxes[name][0] + boxes[name][2] / 2, boxes[name][1] - 3
    bend = to_y - BETWEEN + 6
    stretch = (x - 2, y + 1, 4, max(bend - y - 1, 1))
    for other, box in boxes.items():
        if other != low and covers(stretch, box):
            sys.exit(f"the arrow from {low} to {name} would cover {other}: give one of them another column")
    middle = (bend + to_y) / 2
    return f"M{x:g} {y:g}V{bend:g}C{x:g} {middle + 8:g} {to_x:g} {middle - 8:g} {to_x:g} {to_y:g}"


def draw(crates, notes):
    """Returns the drawing, as SVG."""
    boxes = place(crates, notes)
    for a in boxes:
        for b in boxes:
            if a < b and covers(boxes[a], boxes[b]):
                sys.exit(f"{a} and {b} stand in one place: give one of them another column")
    width = max(box[0] + box[2] for box in boxes.values()) + MARGIN
    height = max(box[1] + box[3] for box in boxes.values()) + MARGIN
    parts = [
        f'<svg xmlns="http://www.w3.org/2000/svg" viewBox="0 0 {width:g} {height:g}" '
        f'width="{width:g}" height="{height:g}">',
        "<title>The crates, and what flows between them</title>",
        '<defs><marker id="tip" viewBox="0 0 8 8" refX="6" refY="4" markerWidth="7" markerHeight="7" orient="auto">'
        '<path d="M0 0L8 4L0 8z" fill="#5b6770"/></marker></defs>',
        "<style>text{font-family:Helvetica,Arial,sans-serif;font-size:12px;fill:#333}"
        ".name{font-weight:bold;font-size:14px;fill:#111}.gives{font-style:italic;fill:#1f5f8b}"
        ".box{stroke:#8a949c;stroke-width:1}.arrow{stroke:#5b6770;stroke-width:1.3;fill:none}</style>",
        f'<rect width="{width:g}" height="{height:g}" fill="#fff"/>',
    ]
    for low, name in sorted(arrows_of(crates)):
        parts.append(f'<path class="arrow" marker-end="url(#tip)" d="{route(boxes, low, name)}"/>')
    for name, (left, top, wide, high) in boxes.items():
        parts.append(
            f'<rect class="box" x="{left:g}" y="{top:g}" width="{wide}" height="{high}" rx="6" '
            f'fill="{FILLS[notes[name][1]]}"/>'
        )
        parts.append(f'<text class="name" x="{left + 10:g}" y="{top + 19:g}">{escape(name)}</text>')
        for number, (line, kind) in enumerate(words_of(notes[name])):
            parts.append(
                f'<text class="{kind}" x="{left + 10:g}" y="{top + 36 + LINE * number:g}">{escape(line)}</text>'
            )
    return "\n".join(parts + ["</svg>", ""])


def main():
    crates, notes = read_crates(), read_notes()
    if set(crates) != set(notes):
        sys.exit(f"crates.txt and docs/crates_drawing.txt differ in {sorted(set(crates) ^ set(notes))}")
    drawing, file = draw(crates, notes), TOP / "docs/crates.svg"
    if "--check" in sys.argv[1:]:
        if not file.exists() or file.read_text() != drawing:
            sys.exit(
                "docs/crates.svg is not the drawing of crates.txt and docs/crates_drawing.txt: tools/draw_crates.py"
            )
    else:
        file.write_text(drawing)


main()
