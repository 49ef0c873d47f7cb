#!/usr/bin/env python3
"""Writes the tables that are built in, as constants, from the property files that Unicode publishes.

usage: tools/standard_tables.py [--check]

The edition is the one that data/EDITION names, and its three property files are in data/unicode-EDITION. From these
come, in crates/standard, src/facts.rt (what the files state, in the files' own form, without comments, with adjacent
ranges of one class joined), src/{classes,brackets,mirrors}.rt (the same as the two stages that a look-up reads) and
proofs/Numbering.antt (which bracket has which key).

With --check nothing is written. It ends with status 1 if a file isn't the one that would be written, or if the class,
the bracket or the mirrored character of some code point differs between the published files and the facts.
"""

import pathlib
import re
import sys
import unicodedata

TOP = pathlib.Path(__file__).resolve().parent.parent
EDITION = (TOP / "data/EDITION").read_text(encoding="utf-8").strip()
PUBLISHED = TOP / f"data/unicode-{EDITION}"
STANDARD = TOP / "crates/standard"
FILES = {
    "CLASSES": "extracted/DerivedBidiClass.txt",
    "BRACKETS": "BidiBrackets.txt",
    "MIRRORS": "BidiMirroring.txt",
}
WIDTH = 116
CODE_POINTS = 0x110000
BLOCK = 128

WRITTEN = "tools/standard_tables.py writes this file."
HEAD = """\
//! The facts of the three property files of Unicode {edition}, in the files' own form. tools/standard_tables.py writes
//! this file.

/// The edition of Unicode that these facts are of.
pub const EDITION: &str = "{edition}";
"""
DOCS = {
    "CLASSES": "What DerivedBidiClass.txt states: the class of each code point (Bidi_Class).",
    "BRACKETS": "What BidiBrackets.txt states: the other bracket of each bracket, and whether it opens or closes.",
    "MIRRORS": "What BidiMirroring.txt states: the mirror image of each character that has one (Bidi_Mirroring_Glyph).",
}


def statements(text):
    """Yields what the lines of a property file state, each as its fields: a default (the first field begins with
    '#@missing:') or data."""
    for line in text.splitlines():
        missing = re.match(r"#\s*@missing:\s*(.*)$", line)
        body = missing[1] if missing else line.partition("#")[0]
        fields = [it.strip() for it in body.split(";")]
        if fields != [""]:
            yield ["#@missing:" + fields[0], *fields[1:]] if missing else fields


def ends(field):
    """Returns the first and the last code point of a range, or of a single code point."""
    first, _, last = field.partition("..")
    return int(first, 16), int(last or first, 16)


def joined(data):
    """Returns the statements of classes, sorted, with adjacent ranges of one class joined."""
    spans = []
    for (first, last), name in sorted((ends(field), name) for field, name in data):
        if spans and spans[-1][2] == name and spans[-1][1] + 1 == first:
            spans[-1][1] = last
        else:
            spans.append([first, last, name])
    return [[f"{a:04X}" if a == b else f"{a:04X}..{b:04X}", name] for a, b, name in spans]


def facts_of(constant, text):
    """Returns the lines that state what a published file states."""
    found = list(statements(text))
    defaults = [it for it in found if it[0].startswith("#")]
    data = [it for it in found if not it[0].startswith("#")]
    if constant == "CLASSES":
        found = defaults + joined(data)
    else:
        found = data
    return [";".join(it) for it in found]


def byte_text(constant, lines):
    """Returns the constant of these lines, as it is in the source."""
    bytes_of, rows = sum(len(it) + 1 for it in lines), [""]
    for line in lines:
        if len(rows[-1]) + len(line) + 2 > WIDTH:
            rows.append("")
        rows[-1] += line + "\\n"
    text = "\\\n    ".join(["", *rows])
    return f"\n/// {DOCS[constant]}\npub static {constant}: [u8; {bytes_of}] = *b\"{text}\";\n"


def facts_file(texts, edition):
    """Returns the source file of the facts."""
    made = [byte_text(constant, facts_of(constant, texts[constant])) for constant in FILES]
    return HEAD.format(edition=edition) + "".join(made)


def stated_in(facts):
    """Returns the bytes of each constant of a file of facts, as text."""
    texts = {}
    for constant in FILES:
        body = re.search(rf'(?s)static {constant}: \[u8; (\d+)\] = \*b"(.*?)";', facts)
        texts[constant] = re.sub(r"\\\n\s*", "", body[2]).replace("\\n", "\n")
        if len(texts[constant]) != int(body[1]):
            sys.exit(f"{constant} has {len(texts[constant])} bytes, and not {body[1]}")
    return texts


def values(text):
    """Returns for each code point what a property file states last of it, defaults first."""
    found = [None] * CODE_POINTS
    for is_data in (False, True):
        for first, *rest in statements(text):
            if first.startswith("#") != is_data:
                a, b = ends(first.removeprefix("#@missing:"))
                found[a : b + 1] = [tuple(rest)] * (b + 1 - a)
    return found


# The long names that @missing lines have, with the short ones of data lines.
LONG = {
    "Left_To_Right": "L",
    "Right_To_Left": "R",
    "Arabic_Letter": "AL",
    "European_Terminator": "ET",
    "Boundary_Neutral": "BN",
}


def named(value):
    """Returns what is stated of a code point, with the class by its short name; None if it is '<none>'."""
    return None if value in (None, ("<none>",), ("<none>", "n")) else (LONG.get(value[0], value[0]), *value[1:])


def array(doc, name, item, items):
    """Returns a constant array, its items in rows."""
    rows, row = [], ""
    for it in items:
        if len(row) + len(it) + 2 > WIDTH - 4:
            rows.append(row.rstrip())
            row = ""
        row += it + ", "
    rows.append(row.rstrip())
    body = "\n    ".join(rows)
    return f"\n/// {doc}\n#[rattlefmt::skip]\npub static {name}: [{item}; {len(items)}] = [\n    {body}\n];\n"


def stages(head, item, items):
    """Returns a source file with the values of all code points in two stages; equal blocks are shared."""
    numbers, block_values, seen = [], [], {}
    for start in range(0, CODE_POINTS, BLOCK):
        block = tuple(items[start : start + BLOCK])
        if block not in seen:
            seen[block] = len(seen)
            block_values.extend(block)
        numbers.append(str(seen[block]))
    return (
        head
        + array("The number of the block of each 128 code points.", "NUMBERS", "u16", numbers)
        + array("The values of the blocks.", "VALUES", item, block_values)
    )


def classes_file(text, edition):
    """Returns the source file of the classes."""
    head = f"//! The classes of Unicode {edition} in two stages. {WRITTEN}\n\nuse units::class::Class;\n"
    return stages(head, "Class", [f"Class::{named(it)[0]}" for it in values(text)])


def mirrors_file(text, edition):
    """Returns the source file of the mirrored characters."""
    head = f"//! The mirror images of Unicode {edition} in two stages. {WRITTEN}\n"
    images = [named(it) for it in values(text)]
    return stages(head, "Option<char>", [f"Some('\\u{{{int(it[0], 16):X}}}')" if it else "None" for it in images])


def keyed_brackets(text):
    """Returns of each bracket, by code point, whether it opens, and the canonical decomposition of the bracket that its
    key stands for."""
    brackets = {}
    for code, it in enumerate(values(text)):
        if named(it):
            paired, side = it
            closing = int(paired, 16) if side == "o" else code
            brackets[code] = (side == "o", unicodedata.normalize("NFD", chr(closing)))
    return brackets


def numbering_of(brackets):
    """Returns the number of each decomposition, in the order in which they come first."""
    return {it: n for n, it in enumerate(dict.fromkeys(decomposed for _, decomposed in brackets.values()))}


def brackets_file(text, edition):
    """Returns the source file of the brackets."""
    brackets = keyed_brackets(text)
    numbering = numbering_of(brackets)
    values_of = {
        code: f"Bracket::{'Open' if opens else 'Close'}(Key({numbering[decomposed]}))"
        for code, (opens, decomposed) in brackets.items()
    }
    head = (
        f"//! The brackets of Unicode {edition} in two stages. {WRITTEN}\n\n"
        "use ucdfiles::span::Span;\nuse units::bracket::{Bracket, Key};\n"
    )
    spans = [f"Span {{ first: 0x{code:X}, last: 0x{code:X}, value: {it} }}" for code, it in values_of.items()]
    items = [values_of.get(code, "Bracket::No") for code in range(CODE_POINTS)]
    in_order = "The brackets, in the order of their code points."
    return stages(head, "Bracket", items) + array(in_order, "SPANS", "Span<Bracket>", spans)


def antt_list(items):
    """Returns a list in antt's notation."""
    return " ∷ ".join([*items, "[]"])


def codes(text):
    """Returns the code points of a text in antt's notation."""
    return antt_list(f"0x{ord(c):X}" for c in text)


def numbering_file(text):
    """Returns the proof file of the brackets' decompositions and their numbers."""
    brackets = keyed_brackets(text)
    numbers = [f"({codes(it)}, {n})" for it, n in numbering_of(brackets).items()]
    each = [f"({codes(decomposed)})" for _, decomposed in brackets.values()]
    lines = "\n    ∷ "
    return (
        f"-- {WRITTEN}\nuse Rattle.std.proofs.Common.{{ℕ, List, [], ◌∷◌}}\n\n"
        "-- the canonical decompositions that keys stand for, each with its number\n"
        "unfoldable pub numbering : List (List ℕ × ℕ)\n"
        f"numbering =\n    {lines.join([*numbers, '[]'])}\n\n"
        "-- the decomposition for each bracket, in the order of their code points\n"
        "unfoldable pub decompositions : List (List ℕ)\n"
        f"decompositions =\n    {lines.join([*each, '[]'])}\n"
    )


def crate_files(crate, facts, edition):
    """Returns the files of a crate of constants, by path, from its file of facts."""
    texts = stated_in(facts)
    return {
        crate / "src/facts.rt": facts,
        crate / "src/classes.rt": classes_file(texts["CLASSES"], edition),
        crate / "src/brackets.rt": brackets_file(texts["BRACKETS"], edition),
        crate / "src/mirrors.rt": mirrors_file(texts["MIRRORS"], edition),
        crate / "proofs/Numbering.antt": numbering_file(texts["BRACKETS"]),
    }


def differences(texts, facts):
    """Yields the code points of which the published files and the facts state different things."""
    built_in = stated_in(facts)
    for constant, name in FILES.items():
        for code, (stated, fact) in enumerate(zip(values(texts[constant]), values(built_in[constant]))):
            if named(stated) != named(fact):
                yield f"{name}: {code:04X} has {stated}, and built in is {fact}"


def main(words):
    texts = {constant: (PUBLISHED / name).read_text(encoding="utf-8") for constant, name in FILES.items()}
    published = re.match(r"# DerivedBidiClass-([0-9.]+)\.txt", texts["CLASSES"])[1]
    if published != EDITION:
        sys.exit(f"data/EDITION says {EDITION}, and the published files are those of {published}")
    facts = facts_file(texts, EDITION)
    files = crate_files(STANDARD, facts, EDITION)
    if words != ["--check"]:
        for path, made in files.items():
            path.parent.mkdir(parents=True, exist_ok=True)
            path.write_text(made, encoding="utf-8")
        return 0
    wrong = list(differences(texts, (STANDARD / "src/facts.rt").read_text(encoding="utf-8")))[:5]
    for path, made in files.items():
        if not path.is_file() or path.read_text(encoding="utf-8") != made:
            wrong.append(f"{path.relative_to(TOP)} is not the file that would be written")
    print("\n".join(wrong) or f"built in are the facts of Unicode {EDITION}, of {CODE_POINTS} code points")
    return 1 if wrong else 0


if __name__ == "__main__":
    if sys.argv[1:] not in ([], ["--check"]):
        sys.exit(__doc__)
    sys.exit(main(sys.argv[1:]))
