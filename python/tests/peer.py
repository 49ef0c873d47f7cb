"""Drawn texts, with what python-bidi shows of them.

peer.txt stores this for some of them, so that it is compared also if python-bidi is not installed. If it is,
`python3 -m tests.peer` in the folder python writes the file. Each of its lines is a list in JSON: the base direction or
null, whether capitals are read as right-to-left letters, the text, what is shown, and the base level.
"""
import json
import pathlib
import random

from .test_pairs import ALEF, BET, CONTROLS

SEED, TEXTS, STORED = 9, 2000, 400
FILE = pathlib.Path(__file__).with_name("peer.txt")
# Strong characters, numbers, separators, marks, white space, a joiner, embeddings and overrides: no bracket that N0
# pairs, no isolate, and no character whose class changed between editions of Unicode.
LETTERS = ["a", "b", ALEF, BET, "\u0627", "\u0628"]
LETTERS += "1 2 \u0661 + - , . : / $ % ! < =".split() + [" ", "  ", "\t", "\u0300", "\u200d", "\u200e", "\u200f"]
LETTERS += list(CONTROLS.values())


def draw(source, most):
    """Returns a text of at most so many of the letters."""
    return "".join(source.choices(LETTERS, k=source.randint(0, most)))


def one_paragraph(source):
    """Returns a base direction, that capitals are none of right-to-left, and a text of one paragraph."""
    return source.choice(("L", "R", None)), False, draw(source, 30)


def paragraphs(source):
    """Returns the same for several paragraphs. Each begins and ends with a letter of the direction: python-bidi lets
    other runs go on into the next one."""
    letter, base_dir = source.choice((("a", "L"), ("a", None), (ALEF, "R"), (ALEF, None)))
    ends = source.choices(["\n", "\r\n", "\u2029", "\x1c"], k=source.randint(1, 3))
    return base_dir, False, "".join(f"{letter}{draw(source, 12)}\u202c{letter}{end}" for end in ends) + letter


def capitals(source):
    """Returns the same for a text whose capitals are read as right-to-left letters."""
    return None, True, draw(source, 20).replace(ALEF, "A").replace(BET, "B")


def drawn(texts):
    """Returns so many texts of one paragraph, with a quarter as many of the other two forms."""
    source = random.Random(SEED)
    forms = [one_paragraph] * texts + [paragraphs] * (texts // 4) + [capitals] * (texts // 4)
    return [form(source) for form in forms]


def shown_by(peer, base_dir, upper_is_rtl, text):
    """Returns what a module shows of a text, and its base level."""
    shown = peer.get_display(text, base_dir=base_dir, upper_is_rtl=upper_is_rtl)
    return shown, peer.get_base_level(text, upper_is_rtl=upper_is_rtl)


def stored():
    """Returns the texts of the file, each with what python-bidi shows and the base level."""
    lines = [json.loads(line) for line in FILE.read_text().splitlines()]
    return [(tuple(line[:3]), tuple(line[3:])) for line in lines]


if __name__ == "__main__":
    from bidi import algorithm

    FILE.write_text("".join(json.dumps([*case, *shown_by(algorithm, *case)]) + "\n" for case in drawn(STORED)))
