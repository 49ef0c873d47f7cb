"""Records which wrong bodies were rejected, with sums that show whether a record still holds.

Two sums are stored for each wrong body. One is over what it is: its own text, and the right code of the functions that
it changes, or of the files if it changes no function. The other is over all else that decides whether the prover
rejects it: the kit, and of its crate and of those below what crates.txt says of them, all of specs/, and the
signatures, contracts, types and constants of the sources. The bodies of functions aren't in it, except that of a
`const fn`, and neither are proofs, comments, blank lines and the files that programs run on.

tools/try_edits.py writes and reads records. The file RECORD in a crate's folder has those of the crate, one on each
line: the wrong body and its two sums.
"""
import dataclasses
import functools
import glob
import hashlib
import math
import os
import re
import subprocess

RECORD = "edits.rejected"
HEAD = "# wrong body, sum of what it is, sum of what else decides whether it is rejected (tools/edit_records.py)\n"
DIGITS = 16
DRAWN_OF = 10
FUNCTION = re.compile(r"( *)(?:pub(?:\([a-z]+\))? )?(?:unsafe )?(?:extern \"C\" )?fn \w")


@dataclasses.dataclass(frozen=True)
class Sums:
    """The sum of what a wrong body is, and the sum of what else decides whether it is rejected."""

    own: str
    others: str


def body_begins(line, indent, is_first):
    """Returns whether the body of a function at this indentation begins at the end of this line."""
    return line == f"{indent}{{" or (line.endswith(" {") and (is_first or line.startswith(f"{indent})")))


def is_before_body(line, indent):
    """Returns whether a line after the first one of a function at this indentation can belong to its signature and
    contracts, or begins its body. Lines of a contract may be blank, and may end with `;`."""
    return line in ("", f"{indent}{{") or line.startswith((f"{indent} ", f"{indent})", f"{indent}where"))


def without_bodies(text):
    """Returns a source text, as `rt fmt` lays it out, without the bodies of its functions. That of a `const fn` stays,
    since a constant may use it."""
    outside, head, end = [], None, None
    for line in text.split("\n"):
        if end is not None:
            end = None if line == end else end
            continue
        outside.append(line)
        found = FUNCTION.match(line)
        if found:
            head = found[1]
        elif head is not None and not is_before_body(line, head):
            head = None
        if head is not None and body_begins(line, head, found):
            head, end = None, f"{head}}}"
    return "\n".join(outside)


def without_comments(text, path="lib.rt"):
    """Returns the text of a file without the lines that are blank or a comment. Of a string literal, lines that look
    like these go too."""
    sign = "--" if path.endswith(".antt") else "//"
    return "\n".join(it for it in text.split("\n") if it.strip() and not it.lstrip().startswith(sign))


def digits_of(*texts):
    """Returns the first digits of a sum over these texts."""
    total = hashlib.sha256()
    for text in texts:
        total.update(f"{len(text)}\0{text}\0".encode())
    return total.hexdigest()[:DIGITS]


def seen_of(folder):
    """Returns the sum of what a check of the crate in this folder, or of one above it, sees of it, besides bodies of
    functions and proofs."""
    texts = []
    for pattern in ("src/**/*.rt", "specs/**/*.antt"):
        for path in sorted(glob.glob(pattern, root_dir=folder, recursive=True)):
            with open(f"{folder}/{path}", encoding="utf-8") as it:
                text = it.read()
            texts += [path, without_comments(without_bodies(text) if path.endswith(".rt") else text, path)]
    return digits_of(*texts)


@functools.lru_cache(maxsize=None)
def kit():
    """Returns the kit's line."""
    return subprocess.run(["rt", "version"], capture_output=True, text=True, check=True).stdout.strip()


def others_of(crates):
    """Returns for each of these crates, by name, the sum of what else decides whether its wrong bodies are rejected."""
    seen = {name: digits_of(name, " ".join(it.deps), seen_of(it.folder)) for name, it in crates.items()}
    return {name: digits_of(kit(), *(seen[it] for it in sorted({name, *crate.below})))
            for name, crate in crates.items()}


def sums_of(crate, edit, others):
    """Returns the sums of an edit of a crate, which has this sum of all else."""
    codes = ["::".join(path) + without_comments(edit.functions[path]) for path in sorted(edit.functions)]
    files = sorted({path for path, _, _ in edit.pairs if os.path.isfile(f"{crate.folder}/{path}")})
    codes = codes or [without_comments(crate.text(it), it) for it in files]
    return Sums(digits_of(edit.text, *codes), others)


def recorded(crate):
    """Returns the sums that a crate's record names, by edit."""
    try:
        lines = crate.text(RECORD).splitlines()
    except FileNotFoundError:
        return {}
    rows = (it.split() for it in lines if not it.startswith("#"))
    return {row[0]: Sums(row[1], row[2]) for row in rows if len(row) == 3}


def record(crate, sums):
    """Writes the record of a crate: the sums of its edits that were rejected, by edit."""
    crate.put(RECORD, HEAD + "".join(f"{name} {sums[name].own} {sums[name].others}\n" for name in sorted(sums)))


def drawn(labels, commit):
    """Returns a tenth of these labels, rounded up, as the hash of a commit draws them."""
    return set(in_drawn_order(labels, commit)[: math.ceil(len(labels) / DRAWN_OF)])


def in_drawn_order(labels, commit):
    """Returns these labels in the order in which the hash of a commit draws them."""
    return sorted(labels, key=lambda it: hashlib.sha256(f"{commit} {it}".encode()).digest())


def commit_here():
    """Returns the hash of the commit that is checked out, and none outside of a repository of git."""
    if not os.path.exists(".git"):
        return None
    run = subprocess.run(["git", "rev-parse", "HEAD"], capture_output=True, text=True, check=False)
    return run.stdout.strip() or None
