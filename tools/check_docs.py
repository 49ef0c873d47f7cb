#!/usr/bin/env python3
"""Runs the transcripts of the documents with the built program, and compares the output with what they show.

usage: tools/check_docs.py [--store] [FOLDER]      (FOLDER, with the property and test files: /usr/share/unicode)

A transcript is a block of a document (README.md and those of docs/) with lines `$ COMMAND`. The lines after such a
line, up to the next one, are what the command writes to a terminal. bash runs the commands that begin with one of the
words in RUN, those of a document one after another in one folder; others are skipped. RUN_IN has further words for
single documents. A file that no command has made is made from what `cat FILE`, or `od -A n -t x1 FILE`, shows of it.
`ucd` is a folder with the published property files and test files. If FOLDER has none, commands that name it are
skipped, and the script says so. Commands whose tool is not installed are skipped too. Each example in C must be part of
c/manual.c, where it may be indented.

A drawing that a command makes, such as docs/layout.svg, is compared with the one of that name in docs/; with --store it
is stored there. The script also checks that docs/crates.svg is the drawing of the crates. It runs the program that
`rt ci` built, or `rt run` in crates/bidi. It ends with 0 if all is as written, with 1 if not, and with 2 if the program
is missing.
"""

import bz2
import collections
import gzip
import os
import pathlib
import re
import shutil
import subprocess
import sys
import tempfile

TOP = pathlib.Path(__file__).resolve().parent.parent
RUN = ("bidi", "bidi-draw", "cat", "od", "printf", "mkdir")
RUN_IN = {"JUDGE.md": ("python3", "gcc", "./harness")}
TOOLS = {"./harness": "gcc"}  # a program that a command of the document builds, and the tool that builds it
UCD = ("DerivedBidiClass.txt", "BidiBrackets.txt", "BidiMirroring.txt", "BidiTest.txt", "BidiCharacterTest.txt")
STORE = "--store"
SECONDS = 60
BYTES = "od -A n -t x1 "
PACKED = {".gz": gzip.decompress, ".bz2": bz2.decompress}


def transcripts(text):
    """Returns each command of the document, with the lines after it."""
    inside, found = False, []
    for line in text.splitlines():
        if line.startswith("```"):
            inside = not inside
            found.append(None)
        elif inside and line.startswith("$ "):
            found.append((line[2:], []))
        elif inside and found[-1]:
            found[-1][1].append(line)
    return [entry for entry in found if entry]


def make_shown(work, command, shown):
    """Makes the file from what a command shows of it, unless it is there."""
    words = command.split()
    if words[0] not in ("cat", "od") or not (len(words) == 2 or command.startswith(BYTES)):
        return
    file = work / words[-1]
    if file.exists() or words[-1].startswith("ucd/"):
        return
    file.parent.mkdir(parents=True, exist_ok=True)
    content = bytes.fromhex("".join(shown)) if words[0] == "od" else "".join(line + "\n" for line in shown).encode()
    file.write_bytes(content)


def published(folder, place):
    """Puts the published files into a folder `ucd`, and returns whether all were found."""
    place.mkdir()
    for name in UCD:
        found = sorted(path for path in folder.rglob(name + "*") if path.name in (name, name + ".gz", name + ".bz2"))
        if not found:
            return False
        content = found[0].read_bytes()
        (place / name).write_bytes(PACKED.get(found[0].suffix, bytes)(content))
    return True


def written(command, work, path):
    """Returns the lines that a command writes to a terminal, without blanks at their ends."""
    try:
        done = subprocess.run(
            ["bash", "-c", command], cwd=work, stdout=subprocess.PIPE, stderr=subprocess.STDOUT, timeout=SECONDS,
            env={**os.environ, "PATH": path},
        )
    except subprocess.TimeoutExpired:
        return [f"(it did not end within {SECONDS} seconds)"]
    return [line.rstrip() for line in done.stdout.decode(errors="replace").splitlines()]


def wrong_examples(file):
    """Returns how many examples in C of a document are no part of c/manual.c."""
    source = (TOP / "c/manual.c").read_text()
    indented = re.sub("^  ", "", source, flags=re.MULTILINE)
    examples = re.findall(r"^```c\n(.*?)^```$", file.read_text(), re.MULTILINE | re.DOTALL)
    wrong = [example for example in examples if example not in source and example not in indented]
    for example in wrong:
        print(f"{file.name}: an example is no part of c/manual.c:\n{example}")
    return len(wrong)


def wrong_drawings(work):
    """Returns how many drawings of a document's commands differ from those in docs/. With --store it stores them."""
    wrong = 0
    for made in sorted(work.glob("*.svg")):
        stored = TOP / "docs" / made.name
        if STORE in sys.argv[1:]:
            stored.write_bytes(made.read_bytes())
        elif not stored.exists() or stored.read_bytes() != made.read_bytes():
            wrong += 1
            print(f"docs/{made.name} is not the drawing that is made: tools/check_docs.py {STORE}")
    return wrong


def run_document(file, folder, program):
    """Runs the transcripts of a document. Returns how many ran, how many were wrong, and what the skipped ones lack."""
    ran, wrong, lacking = 0, 0, []
    with tempfile.TemporaryDirectory() as made:
        work = pathlib.Path(made)
        (work / ".bin").mkdir()
        (work / ".bin/bidi").symlink_to(program)
        (work / ".bin/bidi-draw").symlink_to(TOP / "draw/bidi-draw")
        has_published = published(folder, work / "ucd")
        path = f"{work / '.bin'}:{os.environ['PATH']}"
        for command, shown in transcripts(file.read_text()):
            word = command.split()[0]
            if word not in (*RUN, *RUN_IN.get(file.name, ())):
                continue
            tool = TOOLS.get(word, word)
            if "ucd" in command and not has_published:
                lacking.append(f"published files in {folder} (package unicode-data)")
                continue
            if not shutil.which(tool, path=path):
                lacking.append(tool)
                continue
            make_shown(work, command, shown)
            found = written(command, work, path)
            ran += 1
            if found != [line.rstrip() for line in shown]:
                wrong += 1
                print(f"{file.name}: $ {command}\nit says\n" + "\n".join(shown) + "\nfound\n" + "\n".join(found))
        wrong += wrong_drawings(work) + wrong_examples(file)
    return ran, wrong, lacking


def main():
    folders = [word for word in sys.argv[1:] if word != STORE]
    folder = pathlib.Path(folders[0] if folders else "/usr/share/unicode")
    program = TOP / "crates/bidi/out/bidi"
    if not program.exists():
        print(f"no program at {program}: run rt ci, or rt run -- --help in crates/bidi", file=sys.stderr)
        sys.exit(2)
    files = [TOP / "README.md", *sorted((TOP / "docs").glob("*.md"))]
    counts = [run_document(file, folder, program) for file in files]
    ran, wrong = (sum(column) for column in list(zip(*counts))[:2])
    lacking = collections.Counter(name for _, _, names in counts for name in names)
    crates = subprocess.run([TOP / "tools/draw_crates.py", "--check"], check=False).returncode
    for name, count in lacking.items():
        print(f"no {name}: {count} commands are not run")
    print(f"{ran} commands of the documents, {wrong} wrong")
    sys.exit(1 if wrong or crates else 0)


main()
