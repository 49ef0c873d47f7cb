"""Reads the crates of the repository, their wrong bodies, and the functions that these change.

A wrong body is an edit: a file of pairs of texts, each of one line (docs/CHANGING.md). tools/try_edits.py tries edits,
and edit_records.py stores which of them were rejected.
"""
import dataclasses
import functools
import glob
import os
import re
import sys

FOLDERS = ("wrong", "must-fail")
FUNCTION = re.compile(r"( *)(?:pub(?:\([a-z]+\))? )?(?:const )?(?:unsafe )?(?:extern \"C\" )?fn (\w+)")
OWNER = re.compile(r"(?:unsafe )?impl\b[^{;]*|(?:pub(?:\([a-z]+\))? )?trait \w+")
TYPE = re.compile(r"^(?:pub(?:\(\w+\))? )?(?:struct|enum|union) (\w+)", re.M)


@dataclasses.dataclass
class Crate:
    """A crate of crates.txt, in a folder that is the top of the repository or of a copy of it."""

    name: str
    deps: list
    below: set
    top: str = "."

    @property
    def folder(self):
        return f"{self.top}/crates/{self.name}"

    def text(self, path):
        """Returns the text of a file of the crate."""
        with open(f"{self.folder}/{path}", encoding="utf-8") as it:
            return it.read()

    def put(self, path, text):
        """Writes a file of the crate."""
        os.makedirs(os.path.dirname(f"{self.folder}/{path}"), exist_ok=True)
        with open(f"{self.folder}/{path}", "w", encoding="utf-8") as it:
            it.write(text)


@dataclasses.dataclass
class Edit:
    """A wrong body: its file from the crate's folder on, its pairs of texts, the functions that it changes, each with
    its right code, and all that it changes, which no other may."""

    label: str
    file: str
    text: str
    pairs: list
    functions: dict
    touched: set
    fault: str


@dataclasses.dataclass
class Function:
    """A function in a source text: what has it, its name, and its first and last line."""

    owner: str
    own_type: str
    name: str
    first: int
    last: int


def crates_here():
    """Returns the crates of the repository at whose top the tool runs, by name."""
    if not os.path.isfile("crates.txt"):
        sys.exit("no crates.txt: this runs at the top of the repository")
    named = {}
    with open("crates.txt", encoding="utf-8") as lines:
        for line in lines:
            words, _, below = line.partition("#")[0].partition(":")
            if words.strip():
                named[words.split()[0]] = below.split()
    return {name: Crate(name, named[name], all_below(name, named)) for name in named}


def all_below(name, named):
    """Returns the crates of the repository that a crate depends on, directly or not."""
    found, left = set(), list(named[name])
    while left:
        dep = left.pop()
        if dep in named and dep not in found:
            found.add(dep)
            left += named[dep]
    return found


def parameters_of(header):
    """Returns the type parameters of an impl, and the text after them."""
    if not header.startswith("<"):
        return set(), header
    depth = 0
    for at, sign in enumerate(header):
        depth += (sign == "<") - (sign == ">")
        if not depth:
            break
    return set(re.findall(r"[<,]\s*(?:const )?(\w+)", re.sub(r"'\w+", "", header[: at + 1]))), header[at + 1 :]


def owner_of(header):
    """Returns how the check names what has a method, which is a type followed by the trait or a trait, and that type if
    it has the method by itself."""
    header = re.sub(r"\bwhere\b.*", "", header, flags=re.S)
    if found := re.match(r"(?:pub(?:\(\w+\))? )?trait (\w+)", header):
        return found[1], ""
    parameters, header = parameters_of(header.removeprefix("unsafe ").removeprefix("impl"))
    trait, _, of_type = header.rpartition(" for ")
    words = re.findall(r"(?:\w+::)*(\w+)", re.sub(r"'\w+", "", f"{of_type} {trait}"))
    words = [it for it in words if it not in parameters]
    return "".join(it[0].upper() + it[1:] for it in words), "" if trait else words[0]


@functools.lru_cache(maxsize=None)
def types_in(text):
    """Returns the names of the types that a source text defines."""
    return frozenset(TYPE.findall(text))


def home_of(crate, name, path):
    """Returns the file that defines a type: by it the check names the methods that the type has by itself."""
    sources = sorted(glob.glob("src/**/*.rt", root_dir=crate.folder, recursive=True))
    return next((it for it in [path, *sources] if name in types_in(crate.text(it))), path)


@functools.lru_cache(maxsize=None)
def functions_in(text):
    """Returns the functions of a source text, as `rt fmt` lays it out, in order."""
    lines, owner, found, end = text.split("\n"), ("", ""), [], None
    for at, line in enumerate(lines):
        if header := OWNER.match("\n".join(lines[at : at + 4])):
            owner = owner_of(header[0])
        if it := FUNCTION.match(line):
            found.append(Function(*(owner if it[1] else ("", "")), it[2], at, len(lines) - 1))
            end = f"{it[1]}}}"
        elif line == end:
            found[-1].last, end = at, None
    return found


def function_at(crate, path, text, row):
    """Returns the path, as the check names it, of the function whose lines have this row, and its code; two times None
    if none does."""
    found = next((it for it in reversed(functions_in(text)) if it.first <= row), None)
    if not found or found.last < row:
        return None, None
    file = home_of(crate, found.own_type, path) if found.own_type else path
    module = file.removeprefix("src/").removesuffix(".rt").split("/")
    name = tuple(it for it in [*module, found.owner, found.name] if it not in ("", "lib", "main", "mod"))
    return name, "\n".join(text.split("\n")[found.first : found.last + 1])


def pairs_of(text):
    """Returns the pairs of an edit: the file, the old text and the new one."""
    path, old, pairs = "", "", []
    for line in text.split("\n"):
        if line.startswith("file: "):
            path = line.removeprefix("file: ").strip()
        elif line.startswith("old: "):
            old = line.removeprefix("old: ")
        elif line.startswith("new:"):
            pairs.append((path, old, line.removeprefix("new:").removeprefix(" ")))
    return pairs


def stray_line(text):
    """Returns what is wrong with an edit that has a line of another kind: each text of an edit is one line."""
    known = ("file: ", "old: ", "new:")
    stray = next((it for it in text.split("\n") if it and not it.startswith(known)), None)
    return "" if stray is None else f"a line is no 'file:', 'old:' or 'new:': {stray.strip()!r}"


def applied(crate, pairs, texts):
    """Returns texts of files with these pairs put in, and what keeps one from it."""
    texts = dict(texts)
    for path, old, new in pairs:
        if not os.path.isfile(f"{crate.folder}/{path}"):
            return texts, f"there is no file {path!r}"
        text = texts.get(path) or crate.text(path)
        if not old or text.count(old) != 1:
            return texts, f"an 'old:' text is in {path} {text.count(old) if old else 0} times, and not once"
        texts[path] = text.replace(old, new)
    is_changed = any(text != crate.text(path) for path, text in texts.items())
    return texts, "" if is_changed else "it changes nothing"


def read_edit(crate, file):
    """Reads an edit, from its file in the crate's folder, and finds what it changes in the crate's files."""
    label = f"{crate.name}/{os.path.basename(file).removesuffix('.edit')}"
    content = crate.text(file)
    pairs = pairs_of(content)
    functions, touched, texts = {}, set(), {}
    for at, (path, old, _) in enumerate(pairs):
        if applied(crate, pairs[: at + 1], {})[1] not in ("", "it changes nothing"):
            break
        text = texts.get(path) or crate.text(path)
        row = text[: text.index(old)].count("\n")
        function, code = function_at(crate, path, text, row)
        if function:
            functions.setdefault(function, code)
        touched.add(function or (path, row))
        texts, _ = applied(crate, [pairs[at]], texts)
    fault = applied(crate, pairs, {})[1] or stray_line(content)
    return Edit(label, file, content, pairs, functions, touched, fault)


def names_in(folder):
    return sorted(it for it in os.listdir(folder) if it.endswith(".edit")) if os.path.isdir(folder) else []


def strays(crates):
    """Returns the files below a folder of wrong bodies that are none of a crate's edits."""
    found = []
    for folder in sorted(glob.glob("crates/*/wrong")):
        for at, _, names in os.walk(folder):
            is_read = at == folder and folder.split("/")[1] in crates
            found += [f"{at}/{it}" for it in sorted(names) if not is_read or not it.endswith(".edit")]
    return found


def files_of(crate, is_all, names):
    """Returns the files of the crate's edits that were asked for, from its folder on."""
    chosen = {it.partition("/")[2] for it in names if it.partition("/")[0] == crate.name}
    files = []
    for part in FOLDERS:
        for name in names_in(f"{crate.folder}/{part}"):
            is_asked = (not names or "" in chosen) and (is_all or part == "wrong")
            if is_asked or name.removesuffix(".edit") in chosen:
                files.append(f"{part}/{name}")
    return files


def unknown(crates, names):
    """Returns the names that name no crate and no edit of one."""
    known = set(crates)
    for crate in crates.values():
        known |= {f"{crate.name}/{it[:-5]}" for part in FOLDERS for it in names_in(f"{crate.folder}/{part}")}
    return [it for it in names if it not in known]
