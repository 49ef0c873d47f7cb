#!/usr/bin/env python3
"""python-bidi before 0.5, by the functions that its get_display calls: rows of texts, or the classes, as rows.h says;
`--version` prints which one it is. It ends a line at each paragraph separator alone, so a text with another end of line
is a row `failed`. Its status is 2 if it is not installed, or is a later one."""
import itertools
import sys
import unicodedata

try:
    import bidi
    from bidi import algorithm
    algorithm.explicit_embed_and_overrides
except (ImportError, AttributeError):
    sys.exit(2)


def joined(items, ends):
    """Items of characters, with the ends of lines between them."""
    return " | ".join(" ".join(map(str, items[start:end])) for start, end in zip([0, *ends], ends))


def lay_out(text, ends, direction):
    """The row's last three fields."""
    if any(unicodedata.bidirectional(text[end - 1]) != "B" for end in ends[:-1]):
        raise ValueError("a line ends inside a paragraph")
    storage = algorithm.get_empty_storage()
    base = algorithm.get_base_level(text) if direction == 2 else direction
    storage["base_level"], storage["base_dir"] = base, "LR"[base]
    algorithm.get_embedding_levels(text, storage, False, False)
    for at, character in enumerate(storage["chars"]):
        character["at"] = at
    algorithm.explicit_embed_and_overrides(storage, False)
    algorithm.resolve_weak_types(storage, False)
    algorithm.resolve_neutral_types(storage, False)
    algorithm.resolve_implicit_levels(storage, False)
    algorithm.reorder_resolved_levels(storage, False)
    # It keeps no level of what it removes: the row has 0 there, and the position after the others of its line.
    levels = {character["at"]: character["level"] for character in storage["chars"]}
    order = [character["at"] for character in storage["chars"]]
    order += [at for at in range(len(text)) if at not in levels]
    order.sort(key=lambda at: sum(at >= end for end in ends))
    return f"{base};{joined([levels.get(at, 0) for at in range(len(text))], ends)};{joined(order, ends)}"


def write_classes():
    """Writes the class of each code point, as python-bidi asks Python for it: `none` where Python says nothing."""
    for name, some in itertools.groupby(range(0x110000), lambda code: unicodedata.bidirectional(chr(code)) or "none"):
        codes = list(some)
        print(f"{codes[0]:04X}..{codes[-1]:04X};{name}")


def main():
    if sys.argv[1:] == ["--version"]:
        print("python-bidi", bidi.VERSION if hasattr(bidi, "VERSION") else "", end=", ")
        print("tables of Unicode", unicodedata.unidata_version)
        return
    if sys.argv[1:] == ["--classes"]:
        write_classes()
        return
    for line in sys.stdin:
        if line[0] in "#\n":
            continue
        codes, direction = line.rstrip("\n").split(";")[:2]
        lines = [one.split() for one in codes.split("|")]
        ends = list(itertools.accumulate(map(len, lines)))
        try:
            made = lay_out("".join(chr(int(code, 16)) for one in lines for code in one), ends, int(direction))
        except Exception:  # pylint: disable=broad-except
            made = "failed"
        print(f"{codes};{direction};{made}")


main()
