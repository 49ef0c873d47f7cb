#!/usr/bin/env python3
"""Lists words of our own for which there is a plain one, in documents, comments and names of the code.

usage: tools/plain_words.py [--list] [--folders] [--exceptions] [WORD..]

Readers of this repository know C, Rust and UAX #9, and plain technical English. So a rare word, or one with a meaning
of its own here, is replaced by the word that they know. WORDS has both. The script searches the first in prose, which
is documents and comments, and in names, split at _ and at capitals. It doesn't search words that only a reader can
judge, such as "by", "where" or "room".

It skips code blocks and what is in backticks (names count where they are declared), strings (printed texts don't
change), data, expected output, wrong bodies, and imports from libraries of the kit, with the names that they bring.
EXCEPTIONS lists what else stays, each with its reason.

For each word it prints how often it is in prose, in how many names, and how often these are used. With --list it prints
each place, with --folders the counts of each crate and folder, and with --exceptions the reason of each exception and
its number of places. With WORD.. it searches only these words. It ends with 0 if none remains, with 1 if some do, and
with 2 for a word that it doesn't know.
"""
import collections
import functools
import io
import pathlib
import re
import subprocess
import sys
import tokenize
from typing import NamedTuple

TOP = pathlib.Path(__file__).resolve().parent.parent


class Word(NamedTuple):
    """The plain word, the forms in prose as a regular expression, and the forms in names."""

    plain: str
    prose: str
    parts: str


WORDS = {
    "anew": Word("again, re-", "anew", "anew"),
    "answer": Word("return, fail with", "(?<!right )answer(?:s|ed|ing)?", "answer answers answered"),
    "as it was": Word("unchanged", "as (?:it|they) (?:was|were)(?=[.,;:)])|what (?:it|they) held", ""),
    "behind": Word("after", "behind", "behind"),
    "claim": Word("expected", "claim(?:s|ed|ing)?", "claim claims claimed"),
    "cutter": Word("line splitter", "cutters?", "cutter cutters"),
    "edit": Word("wrong body, mutation", "edits?", "edit edits"),
    "found": Word("the thing itself", "", "found"),
    "gate": Word("fast path, except for the gate", "gates?|gated", "gate gates gated"),
    "glyph": Word("mirrored character", "glyphs?", "glyph glyphs"),
    "hand": Word("give, pass, return", "handed|handing|hands|hand (?:out|in|over)", "handed handing hands"),
    "held": Word("contained, owned, stored", "held", "held"),
    "kept": Word("stored, owned", "kept", "kept"),
    "law": Word("theorem, lemma", "laws?", "law laws"),
    "leans": Word("a name that says the property", "leans", "leans leaning"),
    "left": Word("remaining, the rest", "", "left"),
    "lend": Word("borrow", "lent|lends?|lending|loans?", "lent lend lends lending loan loans"),
    "light": Word("a name that says the property", "", "light"),
    "lookout": Word("cursor", "lookouts?", "lookout lookouts"),
    "refuse": Word("reject, fail with", "refus(?:e|es|ed|al|als|ing)", "refuse refuses refused refusal"),
    "ready": Word("a name that says the property", "", "ready"),
    "said": Word("a name that says the property", "", "said"),
    "settled": Word("a name that says the property", "settled", "settled"),
    "sought": Word("the thing itself", "sought", "sought"),
    "stand": Word("is, are", "(?:stands?|stood|standing)(?!-in| for\\b| in for\\b| out\\b)", "stands standing stood"),
    "tally": Word("counts", "tall(?:y|ies|ied)", "tally tallies tallied"),
    "told": Word("encoded, reports", "told|tells", "told tell tells"),
    "walk": Word("pass", "walk(?:s|ed|ing)?", "walk walks walked walker"),
}


class Stays(NamedTuple):
    """Places of a word that stay: in files whose path matches; in prose on a line that matches, or a name that does."""

    word: str
    files: str
    form: str
    reason: str


HEADLINE = "the headline and the ten sentences on what is proved, which don't change"
ALLOCATOR = "of memory: an allocator refuses it"
KIT = "a name of the kit or of its libraries"
WRONG_BODY = "the kit's name of a wrong body: FILE.edit"
CLAIMED = "`bidi report` prints 'claimed', so fields of C, Python and Rust have this name"
EXCEPTIONS = (
    Stays("", "^docs/PERF.md", r"^\|", "tables of what was measured and changed, as they were written then"),
    Stays("", "^NOTICES", "", "the text of a licence"),
    Stays("", "^tools/", "^(FileNotFoundError|get_ready|walk)$", "a name of Python's library"),
    Stays("", "^crates/(bidi_c|units)/proofs/", "^(TheLaws|the_row_laws|laws|kept|told)$", KIT),
    Stays("", "^crates/(row_files|requests|units)/src/", "^(Left|NotFound)$", KIT),
    Stays("answer", "^(README|docs/PROVED)", "judge answers", HEADLINE),
    Stays("hand", "^docs/PROVED", "bytes that it was handed", HEADLINE),
    Stays("held", "^docs/PROVED", "the layout that it held", HEADLINE),
    Stays("as it was", "^docs/PROVED", "the layout that it held", HEADLINE),
    Stays("law", "^docs/PROVED", r"a law about the definitions|\(laws: |call it a law", HEADLINE),
    Stays("refuse", "^docs/PROVED", "A text is refused exactly", HEADLINE),
    Stays("answer", "^(crates/for_c|python|rust|c)/", "^[aA]nswer$", "`bidi_verdict`, and its class in Python"),
    Stays("claim", "^(README|docs|python|rust|tools|c|draw)", "claimed|claims", CLAIMED),
    Stays("claim", "^crates/", "^claimed$", CLAIMED),
    Stays("edit", r"^tools/(gate|try_edits|edit_records|edit_files)", "", WRONG_BODY),
    Stays("edit", "", r"\.edit\b|edits\.rejected|must-fail", WRONG_BODY),
    Stays("found", "", "^found$", "a usual name of a local variable"),
    Stays(
        "gate",
        r"^(\.ci/|check$|tools/|c/fribidi/run_suites|CONTRIBUTING|docs/(CHANGING|DECISIONS|ARCHITECTURE|PROVED))",
        "",
        "the gate is `./check all`",
    ),
    Stays("glyph", "", "^glyph$", "the public call of `MirrorTable`, which its users have"),
    Stays("glyph", "^draw/bidi-draw", "", "what is drawn for a character"),
    Stays("left", "", "(?i)cases_?left", "the status of bidi.h, and the error of that name"),
    Stays("left", "^crates/(lines|visual)/", "^([lL]eft|has_left|left_at|left_from_stand)$", "a side"),
    Stays("left", "^(python|rust|tools|c|draw)/", "^(left|LEFT|bisect_left)$", "a side"),
    Stays("refuse", "", "(?i)memory|growth|allocat", ALLOCATOR),
    Stays("refuse", "^(c/refused|tools/refused_growths|tools/growths)", "", ALLOCATOR),
    Stays("refuse", "^(tools/try_edits|docs/PERF)", "'refused", "a word that the kit prints"),
    Stays("refuse", "^(python|docs)", "(Depth|Brackets)Refused", "public exceptions of the module for Python"),
    Stays("walk", "", r"\bWALK\b", "docs/WALK.md takes a text through every rule"),
    Stays("walk", "^docs/WALK.md", "", "docs/WALK.md takes a text through every rule"),
)

# Comments and strings of languages with those of C, and names.
LIKE_C = re.compile(
    r'(?P<comment>//[^\n]*|/\*.*?\*/)|(?P<string>b?r#*".*?"#*|b?"(?:\\.|[^"\\])*")|'
    r"(?P<char>b?'(?:\\[^']+|[^'\\\n])')|(?P<name>[A-Za-z_]\w*)",
    re.DOTALL,
)
ANTT = re.compile(r"(?P<comment>--[^\n]*)|(?P<name>[A-Za-z_][\w']*)")
SHELL = re.compile(r"(?P<comment>(?:^|(?<=\s))#[^\n]*)|(?P<name>^[a-z_]\w*(?=\(\)|=))", re.MULTILINE)
LEXERS = {".antt": ANTT, ".sh": SHELL, ".toml": SHELL}
LEXERS.update(dict.fromkeys((".rt", ".rs", ".c", ".h", ".cc", ".go", ".java"), LIKE_C))
PROSE = (".md", ".1")
IMPORT = re.compile(
    r"^[ \t]*(?:pub |ghost )?use (?:Rattle\.)?(\w+)(?:\.|::)[^;\n]*?([\w']+|\{[^}]*\})\s*(?:;|$)", re.MULTILINE
)
PARTS = re.compile(r"[A-Z]+(?![a-z])|[A-Z]?[a-z]+")
# In names "left" is mostly a side.
SIDES = re.compile(r"left_?to_?right|right_?to_?left", re.IGNORECASE)
WORD_OF_PART = {part: name for name, word in WORDS.items() for part in word.parts.split()}
SEARCHED = [name for name, word in WORDS.items() if word.prose]
IN_PROSE = re.compile(r"\b(?:%s)\b" % "|".join(f"({WORDS[name].prose})" for name in SEARCHED), re.IGNORECASE)


def without(pattern, text):
    """Returns the text with blanks for what the pattern matches; its lines stay."""
    return re.sub(pattern, lambda match: re.sub(r"[^\n]", " ", match[0]), text, flags=re.DOTALL | re.MULTILINE)


def without_imports(text):
    """Returns the text with blanks for the imports from libraries of the kit, and the names that these bring."""
    ours = {path.name for path in (TOP / "crates").iterdir()} | {"crate", "self", "super"}
    kit = set()

    def blank(match):
        if match[1] in ours:
            return match[0]
        kit.update(re.findall(r"[\w']+", match[2]))
        return re.sub(r"[^\n]", " ", match[0])

    return IMPORT.sub(blank, text), kit


def of_python(text):
    """Yields comments, docstrings and names of a file of Python, each with its place in the text."""
    starts = [0]
    for line in text.splitlines(keepends=True):
        starts.append(starts[-1] + len(line))
    opens = True
    for token in tokenize.generate_tokens(io.StringIO(text).readline):
        at = starts[token.start[0] - 1] + token.start[1]
        if token.type == tokenize.COMMENT or (token.type == tokenize.STRING and opens):
            yield "prose", at, token.string
        elif token.type == tokenize.NAME:
            yield "name", at, token.string
        if token.type not in (tokenize.COMMENT, tokenize.DEDENT, tokenize.NL):
            opens = token.type in (tokenize.INDENT, tokenize.NEWLINE)


def pieces(path, text):
    """Yields the prose and the names of a file, each with its place in the text."""
    if path.suffix in PROSE or path.name == "NOTICES":
        yield "prose", 0, without(r"^```.*?^```", text)
    elif path.suffix == ".py" or text.startswith("#!/usr/bin/env python3"):
        yield from of_python(text)
    elif path.suffix in LEXERS or text.startswith("#!"):
        own_text, kit = without_imports(text)
        for match in LEXERS.get(path.suffix, SHELL).finditer(own_text):
            if match.lastgroup == "comment":
                yield "prose", match.start(), match[0]
            elif match.lastgroup == "name" and match[0] not in kit:
                yield "name", match.start(), match[0]


class Place(NamedTuple):
    """Where a word is: in prose or in a name, with the name or the form."""

    word: str
    kind: str
    form: str
    path: str
    line: int
    text: str


@functools.lru_cache(maxsize=None)
def words_of_name(name):
    """Returns the words that a name has as parts."""
    parts = [part.lower() for part in PARTS.findall(SIDES.sub("", name))]
    return {WORD_OF_PART[part] for part in parts if part in WORD_OF_PART}


def forms_in(kind, piece):
    """Returns each word in a piece, with its form and its place there."""
    if kind == "name":
        return [(word, piece, 0) for word in words_of_name(piece)]
    found = IN_PROSE.finditer(without("`[^`]*`", piece))
    return [(SEARCHED[match.lastindex - 1], match[0], match.start()) for match in found]


def places(path):
    """Yields all places of the words in a file."""
    try:
        text = (TOP / path).read_text(encoding="utf-8")
    except (UnicodeDecodeError, IsADirectoryError):
        return
    lines = text.split("\n")
    for kind, at, piece in pieces(pathlib.PurePath(path), text):
        for word, form, offset in forms_in(kind, piece):
            line = text.count("\n", 0, at + offset)
            yield Place(word, kind, form, path, line + 1, lines[line].strip())


def exception_of(place):
    """Returns the exception that a place is, if it is one."""
    text = place.form if place.kind == "name" else place.text
    fitting = (
        stays
        for stays in EXCEPTIONS
        if stays.word in ("", place.word) and re.search(stays.files, place.path) and re.search(stays.form, text)
    )
    return next(fitting, None)


def folder_of(path):
    """Returns the crate of a file, or its first folder."""
    parts = path.split("/")
    return "/".join(parts[:2]) if parts[0] == "crates" else parts[0] if len(parts) > 1 else "."


def print_counts(remaining, by):
    """Prints a line of counts for each word, and for each folder if they are counted by folders."""
    groups = collections.defaultdict(list)
    for place in remaining:
        groups[by(place)].append(place)
    print(f"{'prose':>7}{'names':>7}{'uses':>7}  ")
    for key, group in sorted(groups.items(), key=lambda item: -len(item[1])):
        names = [place.form for place in group if place.kind == "name"]
        print(f"{len(group) - len(names):7}{len(set(names)):7}{len(names):7}  {key}")


def main():
    options = [word for word in sys.argv[1:] if word.startswith("--")]
    words = [word for word in sys.argv[1:] if not word.startswith("--")] or list(WORDS)
    unknown = [word for word in words if word not in WORDS] + [
        option for option in options if option not in ("--list", "--folders", "--exceptions")
    ]
    if unknown:
        print(f"not known: {' '.join(unknown)}; the words are {', '.join(WORDS)}", file=sys.stderr)
        sys.exit(2)
    tracked = subprocess.run(["git", "ls-files"], cwd=TOP, stdout=subprocess.PIPE, check=True, text=True).stdout
    files = [path for path in tracked.splitlines() if path != "tools/plain_words.py"]
    all_places = [place for path in files for place in places(path) if place.word in words]
    remaining = [place for place in all_places if not exception_of(place)]
    if "--list" in options:
        for place in remaining:
            print(f"{place.path}:{place.line}: {place.form}: {place.text}")
    if "--exceptions" in options:
        staying = filter(None, map(exception_of, all_places))
        counts = collections.Counter((stays.word or "any", stays.reason) for stays in staying)
        for (word, reason), count in sorted(counts.items()):
            print(f"{count:7}  {word}: {reason}")
    print_counts(remaining, lambda place: f"{place.word} -> {WORDS[place.word].plain}")
    if "--folders" in options:
        print_counts(remaining, lambda place: f"{folder_of(place.path)}: {place.word}")
    sys.exit(1 if remaining else 0)


main()
