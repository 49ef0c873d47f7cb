#!/usr/bin/env python3
"""Compares an engine's rows with those of the library for C, and with what `bidi report` says of them.

usage: tools/engines/hold.py [--each] TABLES TEXTS ROWS COMMAND..

BIDI_LIBRARY names the shared object, and BIDI the program. TABLES is a folder with the three property files. TEXTS is a
file of lines `CODE POINTS;DIRECTION`; what follows a further semicolon is skipped, so a test file of characters serves
too. Duplicates count once. A `|` between two code points ends a line of layout, and each paragraph separator needs one
after it, unless it is the last character. COMMAND runs the engine, as rows.h says.

The script first makes and reports on the library's own rows: none may be wrong. Then it makes the engine's rows, and
writes them to ROWS as a test file, without those that the engine failed to make, which it counts apart. It compares
them with the library's and, with `bidi report --shown`, with the rules; both must find as many that are wrong. Levels
and places of characters that X9 removes are skipped, since an engine need not report them. A test file has no form for
several lines, so rows of such texts are only compared with the library's.

It prints which engine it is, how many rows there are, and how many of them are wrong and in what. For each kind it
prints some smallest texts with both claims. To find these, it leaves characters out of wrong texts, as long as the rest
is wrong in the same way and direction. With `--each` it prints all wrong rows instead, and looks for no smaller ones.

It ends with 0 if both counts are one, and with 1 if they aren't, or a row of the library's is wrong.
"""
import collections
import itertools
import os
import pathlib
import re
import subprocess
import sys

TOP = pathlib.Path(__file__).resolve().parents[2]
sys.path.insert(0, str(TOP / "python"))
sys.dont_write_bytecode = True
import bidi_proved as bidi  # noqa: E402  (it lies in a folder of the repository)

FIELDS = ("paragraph level", "levels", "order")
FAILED = "no row"
BREAK = "|"
MOST = 6
TRIED = 24

# A row that an engine made, the library's of the same text, and in what the first is wrong, or nothing.
Compared = collections.namedtuple("Compared", "row own kind")


class Holder:
    """An engine, the library and its tables."""

    def __init__(self, folder, command, longest):
        self.folder, self.command = folder, command
        self.tables, self.room = bidi.Tables.read(folder), bidi.Room(longest)

    def version(self):
        """Which engine it is."""
        words = [*self.command, "--version"]
        return subprocess.run(words, capture_output=True, text=True, check=False).stdout.strip()

    def right_row(self, text):
        """The library's row of a text, or nothing if a paragraph ends inside a line."""
        codes, direction = text
        lines = [line.split() for line in codes.split(BREAK)]
        ends = list(itertools.accumulate(map(len, lines)))
        characters = "".join(chr(int(code, 16)) for line in lines for code in line)
        made = self.room.lay_out(characters, self.tables, int(direction), ends[:-1])
        if len(made.lines) != len(lines):
            return None
        shown = ["x" if level is None else str(level) for level in made.levels]
        levels = [shown[line.start : line.end] for line in made.lines]
        orders = [map(str, line.order) for line in made.lines]
        return [codes, direction, str(made.paragraph_levels[0]), joined(levels), joined(orders)]

    def rows_of(self, texts):
        """Returns the rows that the engine makes of texts, as it prints them."""
        asked = "".join(f"{codes};{direction}\n" for codes, direction in texts)
        made = subprocess.run(self.command, input=asked, stdout=subprocess.PIPE, text=True, check=True).stdout
        rows = [line.split(";") for line in made.splitlines()]
        if len(rows) != len(texts):
            sys.exit(f"{self.command}: {len(rows)} rows of {len(texts)} texts")
        return rows

    def compared(self, texts):
        """The engine's rows of these texts, beside the library's."""
        right = [self.right_row(text) for text in texts]
        return [Compared(row, own, kind_of(row, own)) for row, own in zip(self.rows_of(texts), right)]

    def check_own(self, right):
        """Ends the run where a row of the library's is wrong, or is none."""
        if None in right:
            sys.exit("a paragraph of these texts ends inside a line")
        file = "".join(";".join(row) + "\n" for row in right if BREAK not in row[0]).encode()
        wrong = list(bidi.report_characters(file, self.tables))
        if wrong:
            sys.exit("\n".join([f"of the library's own rows {len(wrong)} are wrong", *map(str, wrong[:MOST])]))

    def reported(self, file):
        """How many rows `bidi report` finds in a file and how many of them wrong, and what it says."""
        words = ["report", "--kind", "characters", "--tables", self.folder, "--shown", "--most", "0", file]
        output = subprocess.run([os.environ["BIDI"], *words], stdout=subprocess.PIPE, text=True, check=False).stdout
        found = re.search(r"^(\d+) rows, (\d+) wrong;", output, re.MULTILINE)
        return (int(found[1]), int(found[2]), output) if found else (0, 0, output)


def joined(lines):
    """The items of lines, with the ends of lines between them."""
    return f" {BREAK} ".join(" ".join(line) for line in lines)


def is_row(row):
    """Whether the engine made this row."""
    return len(row) == 5


def without_removed(row, right):
    """An engine's row, with what X9 removes as in the library's."""
    levels = ["x" if own == "x" else level for level, own in zip(row[3].split(), right[3].split())]
    removed = [level == "x" for level in levels if level != BREAK]
    order = joined([at for at in line.split() if not removed[int(at)]] for line in row[4].split(BREAK))
    return [*row[:3], " ".join(levels), order]


def kind_of(row, right):
    """In what a row is wrong, or nothing."""
    if right is None:
        return ""
    if not is_row(row):
        return FAILED
    pairs = zip(FIELDS, without_removed(row, right)[2:], right[2:])
    return " and ".join(name for name, one, other in pairs if one != other)


def read_texts(file):
    """The texts of a file, as pairs of code points and direction."""
    lines = [line for line in pathlib.Path(file).read_text().splitlines() if line and line[0] != "#"]
    return list(dict.fromkeys(tuple(line.split(";")[:2]) for line in lines))


def length_of(text):
    """How many items a text has: characters, and ends of lines inside it."""
    return text[0].count(" ") + 1


def smaller(text, size):
    """Returns a text without as many of its adjacent items, at each place, if no line is empty then."""
    items = text[0].split()
    starts = range(0, len(items) if len(items) > size else 0, size)
    left = [" ".join(items[:at] + items[at + size :]) for at in starts]
    return [(codes, text[1]) for codes in left if all(line.strip() for line in codes.split(BREAK))]


def smallest(texts, kind, holder):
    """Of each of these texts, which are wrong in this way, a smallest one that is so too: characters are left out, many
    at once first."""
    ended, under_way = {}, [(text, max(1, length_of(text) // 2)) for text in texts]
    while under_way:
        tried = [smaller(text, size) for text, size in under_way]
        found = iter(holder.compared([one for some in tried for one in some]))
        left = []
        for (text, size), some in zip(under_way, tried):
            good = [one for one in some if next(found).kind == kind]
            if good:
                left.append((good[0], min(size, max(1, length_of(good[0]) // 2))))
            elif size > 1:
                left.append((text, size // 2))
            else:
                ended[text] = None
        under_way = left
    return sorted(ended, key=length_of)


def print_rows(compared):
    """Prints wrong rows beside the right ones."""
    for one in compared:
        made = without_removed(one.row, one.own) if is_row(one.row) else one.row
        print(f"    {';'.join(one.own[:2])}\n      right {';'.join(one.own[2:])}\n      made  {';'.join(made[2:])}")


def print_kind(kind, found, holder, each):
    """Prints how many rows are wrong in this way, and each of them or some smallest ones."""
    print(f"  {kind}: {len(found)}{'' if each else ', such as'}")
    if each:
        print_rows(found)
        return
    texts = sorted(((one.row[0], one.row[1]) for one in found), key=length_of)
    some = smallest(texts[:: -(-len(texts) // TRIED)], kind, holder)
    print_rows(holder.compared(some[:MOST]))


def print_wrong(compared, holder, each):
    """Prints what is wrong."""
    wrong = collections.defaultdict(list)
    for one in compared:
        if one.kind:
            wrong[one.kind].append(one)
    failed = len(wrong[FAILED])
    count = sum(map(len, wrong.values())) - failed
    print(f"{holder.version()}: {len(compared) - failed} rows, {count} wrong; {failed} failed")
    for kind, found in sorted(wrong.items()):
        if found:
            print_kind(kind, found, holder, each)


def agrees(compared, holder, file):
    """Writes the rows that the engine made to a file, and returns whether `bidi report` counts as many wrong ones."""
    made = [one for one in compared if is_row(one.row) and BREAK not in one.row[0]]
    pathlib.Path(file).write_text("".join(";".join(one.row) + "\n" for one in made))
    wrong = sum(1 for one in made if one.kind)
    rows, reported, output = holder.reported(file)
    if (rows, reported) == (len(made), wrong):
        return True
    print(f"  {wrong} of {len(made)} rows are wrong, and of {file} bidi report says\n{output}", end="")
    return False


def main():
    each = sys.argv[1:2] == ["--each"]
    words = sys.argv[2 if each else 1 :]
    if len(words) < 4:
        sys.exit(__doc__)
    folder, file, rows, *command = words
    texts = read_texts(file)
    holder = Holder(folder, command, max(map(length_of, texts)))
    compared = holder.compared(texts)
    holder.check_own([one.own for one in compared])
    print_wrong(compared, holder, each)
    sys.exit(not agrees(compared, holder, rows))


if __name__ == "__main__":
    main()
