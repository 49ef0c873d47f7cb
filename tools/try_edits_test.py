#!/usr/bin/env python3
"""Tests tools/try_edits.py in a small repository that it makes.

usage: tools/try_edits_test.py      (its status is 0 if all is as expected; it takes some ten processor minutes)

Edits that break a contract must pass. Each edit that shows nothing must fail, and its run must end with 1: one that
changes nothing, one that can't be applied, one with a text of two lines, one that doesn't compile, one that means the
same as the right code, and one that is rejected only because a proof file cites a name that it removed. None of these
gets a record.

An edit with a record is tried again if its function changed. If its function changed, or if it was drawn, and no time
is left, the run ends with 1. If only a proof changed, nothing but the draw is tried. If only a contract of a crate
below changed, the edit is stale as long as no time is left for it, and the run says so. The draw shows that a false
record is false. With --here the checkout is unchanged afterwards, except for records.

The sum of what else decides whether an edit is rejected has all that it is to have, and no body of a function. With
--here no edit that may be stale starts before one that must be tried. In a repository of git, the options of the gate
try what the commit draws, and the status is 1 if no time is left for it.
"""
import dataclasses
import itertools
import os
import pathlib
import subprocess
import sys
import tempfile

import edit_records
from edit_files import Crate, read_edit
from try_edits import Job, startable

TOOL = pathlib.Path(__file__).resolve().parent / "try_edits.py"
CODE = """//! Numbers.
#![tactic(auto)]

ghost use Rattle.small.specs.Same.{same_as};
ghost use Rattle.std.specs.Prelude.{◌≡◌, ◌≤◌};

/// Returns its argument.
pub fn same(x: usize) -> usize
    ensures { result ≡ same_as x }
{
    x
}

/// Answers it too, by another function.
pub fn same_again(x: usize) -> usize
    ensures { result ≡ same_as x }
{
    same(x)
}

/// Answers the smaller one of two numbers.
pub fn smaller(x: usize, y: usize) -> usize
    ensures first { result ≤ x }
    ensures second { result ≤ y }
{
    if x < y { x } else { y }
}
"""
SPEC = """use Rattle.std.specs.Prelude.{ℕ}

unfoldable pub same_as : ℕ → ℕ
same_as x = x
"""
SAME = """use Rattle.std.proofs.Common.{refl}
use Rattle.small.specs.Same.{same_as}
use Rattle.small.proofs.same.Goals as goal

pub returns : goal.returns
unfolding same_as
returns c = refl
"""
SAME_AGAIN = """use Rattle.small.proofs.same_again.Goals as goal

pub returns : goal.returns
returns c = c.same.ensures
"""
PAIR = """//! Pairs.
#![tactic(auto)]

ghost use Rattle.std.specs.Prelude.{◌≤◌};

use small::smaller;

/// Returns a number that is not above the first one.
pub fn lower(x: usize, y: usize) -> usize
    ensures { result ≤ x }
{
    smaller(x, y)
}
"""
SEEN = """/// A text.
pub const HELP: &str =
    "Either of \\
     --these or \\
     --those";

pub trait Named {
    /// Returns a name.
    fn name(&self) -> usize
        ensures first { result ≡ name_of self.now };

    /// Returns it too.
    fn again(&self) -> usize;
}

impl Pair {
    const fn zero(
        x: usize,
    ) -> usize {
        0
    }

    /// Returns a pair.
    pub fn new(
        x: usize,
    ) -> Pair
        ensures made { result ≡ record {
          x = x;

          y = x;
        } }
    {
        Pair { x, y: x }
    }
}

/// Returns a number.
fn first(pair: Pair) -> usize {
    pair.x
}
"""
SEEN_FILES = {"src/lib.rt": SEEN, "specs/Name.antt": SPEC, "proofs/first/Answers.antt": SAME}
UNSEEN_CHANGES = {
    "a body": ("src/lib.rt", "    pair.x\n", "    pair.y\n"),
    "a body after a contract with `;`": ("src/lib.rt", "Pair { x, y: x }", "Pair { x: 0, y: x }"),
    "a comment of a source": ("src/lib.rt", "/// Returns a number.", "/// Returns x."),
    "a comment of a specification": ("specs/Name.antt", "unfoldable pub", "-- The same.\nunfoldable pub"),
    "a proof": ("proofs/first/Answers.antt", "refl\n", "same_as.self\n"),
}
SEEN_CHANGES = {
    "a definition": ("specs/Name.antt", "same_as x = x", "same_as x = 0"),
    "a contract of a trait": ("src/lib.rt", "name_of self.now", "name_of self.now + 0"),
    "a contract with `;`": ("src/lib.rt", "y = x;", "y = 0;"),
    "a signature after a body": ("src/lib.rt", "fn first(pair: Pair)", "fn first(pair: &Pair)"),
    "the body of a `const fn`": ("src/lib.rt", "        0\n", "        1\n"),
    "a line of a text that begins with --": ("src/lib.rt", "--these", "--others"),
}
FILES = {
    "crates.txt": "small:\npair: small\n",
    "HANDLES": "Handles allowed: none.\n",
    "crates/pair/src/lib.rt": PAIR,
    "crates/pair/wrong/other.edit": "file: src/lib.rt\nold:     smaller(x, y)\nnew:     y\n",
    "crates/small/src/lib.rt": CODE,
    "crates/small/specs/Lib.antt": "pub mod Same\n",
    "crates/small/specs/Same.antt": SPEC,
    "crates/small/proofs/same/Answers.antt": SAME,
    "crates/small/proofs/same_again/Answers.antt": SAME_AGAIN,
}
SMALLER = "    if x < y { x } else { y }"
GOOD = {
    "larger": (SMALLER, "    if y < x { x } else { y }"),
    "first": (SMALLER, "    if x < y { x } else { x }"),
    "other": ("    same(x)", "    same(if x == 7 { 8 } else { x })"),
}
BAD = {
    "nothing": (SMALLER, SMALLER, "BAD EDIT: it changes nothing"),
    "gone": ("    if x < z { x } else { y }", SMALLER, "BAD EDIT: an 'old:' text is in src/lib.rt 0 times"),
    "two_lines": (SMALLER, "    if y < x { x } else { y }\n    // More.", "BAD EDIT: a line is no 'file:'"),
    "misread": (SMALLER, "    if x < y { z } else { y }", "FAILED (singly): BAD EDIT: it did not reach the prover"),
    "as_before": (SMALLER, "    if x <= y { x } else { y }", "FAILED (singly): NOT REFUSED"),
    "by_name": ("    same(x)", "    x", "FAILED (singly): refused, as it must be (only because a proof file names"),
}


def put(file, text):
    file.parent.mkdir(parents=True, exist_ok=True)
    file.write_text(text, encoding="utf-8")


def ran_with(top, words):
    """Runs the tool with these arguments. Returns the status, and the lines that were printed."""
    ran = subprocess.run([TOOL, *words], cwd=top, stdout=subprocess.PIPE, stderr=subprocess.STDOUT, check=False)
    return ran.returncode, ran.stdout.decode(errors="replace").splitlines()


def tried(top, names):
    """Tries these edits. Returns the status, and the lines that were printed."""
    return ran_with(top, [f"small/{it}" for it in names])


def put_edits(top, edits):
    """Puts these edits into the crate, and no others."""
    for file in (top / "crates/small/wrong").glob("*.edit"):
        file.unlink()
    for name, (old, new, *_) in edits.items():
        put(top / f"crates/small/wrong/{name}.edit", f"file: src/lib.rt\nold: {old}\nnew: {new}\n")


def records(top):
    """Tries records. Returns whether each run is as expected."""
    small, pair = crates_at(top)
    status, lines = ran_with(top, ["--record"])
    known = edit_records.recorded(small)
    well = [is_as_expected("no record of bad edits", lines, status == 1 and set(known) == set(GOOD))]
    put_edits(top, GOOD)
    status, lines = ran_with(top, ["--record"])
    is_well = status == 0 and len(edit_records.recorded(small)) == 3 and len(edit_records.recorded(pair)) == 1
    well.append(is_as_expected("records of good edits", lines, is_well and lines[-1] == "4 passed, 0 failed, 0 stale"))
    well.append(changed(top, "records that fit", "1 passed, 0 failed, 0 stale", 0))
    well.append(changed(top, "a draw for which no time is left", "0 passed, 1 failed, 0 stale", 1, ["--minutes=0"]))
    put(top / "crates/small/proofs/same/Answers.antt", SAME + "-- More.\n")
    well.append(changed(top, "a change of a proof", "1 passed, 0 failed, 0 stale", 0))
    known = edit_records.recorded(small)
    edit_records.record(small, {})
    no_time = ["--minutes=0", "small"]
    well.append(changed(top, "edits without a record, no time", "0 passed, 3 failed, 0 stale", 1, no_time))
    older = {name: dataclasses.replace(it, others="0" * edit_records.DIGITS) for name, it in known.items()}
    edit_records.record(small, older)
    count = len(drawn(small))
    stale = f"0 passed, {count} failed, {3 - count} stale"
    well.append(changed(top, "records of something else, no time", stale, 1 if count else 0, no_time))
    edit_records.record(small, known)
    put(top / "crates/small/src/lib.rt", CODE.replace(SMALLER, f"    let x = x;\n{SMALLER}"))
    count = len({"first", "larger"} | drawn(small))
    untried, tried = f"0 passed, {count} failed, 0 stale", f"{count} passed, 0 failed, 0 stale"
    well.append(changed(top, "a changed function, no time", untried, 1, ["--minutes=0", "small"]))
    well.append(changed(top, "a changed function", tried, 0, ["--record", "small"]))
    put(top / "crates/small/src/lib.rt", CODE)
    put_edits(top, {"as_before": BAD["as_before"]})
    (top / "crates/pair/wrong/other.edit").unlink()
    others = edit_records.others_of({"small": small})["small"]
    sums = edit_records.sums_of(small, read_edit(small, "wrong/as_before.edit"), others)
    edit_records.record(small, {"as_before": sums})
    well.append(changed(top, "a false record", "0 passed, 1 failed, 0 stale", 1))
    return well


def crates_at(top):
    """Returns the two crates."""
    return Crate("small", [], set(), str(top)), Crate("pair", ["small"], {"small"}, str(top))


def drawn(crate, commit=None):
    """Returns the names of those good edits of a crate that a commit draws. Without a commit: those that are drawn
    outside of a repository of git."""
    labels = [f"small/{it}" for it in GOOD] + ["pair/other"]
    chosen = (it.partition("/") for it in edit_records.drawn(labels, commit))
    return {name for of, _, name in chosen if of == crate.name}


def changed(top, what, last, expected, words=()):
    """Runs the tool with --changed. Returns whether its status and its last line are as expected."""
    status, lines = ran_with(top, ["--changed", *words])
    return is_as_expected(what, lines, status == expected and lines[-1] == last)


def is_as_expected(what, found, expected):
    """Says whether what was found is as expected, and if not, what it is."""
    print(f"{what}: {'as it is to be' if expected else found}", flush=True)
    return expected


def git(top, *words):
    """Runs git in the repository, and returns what it prints."""
    names = ("-c", "user.name=test", "-c", "user.email=test@localhost")
    return subprocess.run(["git", *names, *words], cwd=top, stdout=subprocess.PIPE, check=True).stdout.decode()


def here(top):
    """Tries edits in the checkout itself. Returns whether each run is as expected."""
    put_edits(top, {**GOOD, "as_before": BAD["as_before"]})
    put(top / "crates/pair/wrong/other.edit", FILES["crates/pair/wrong/other.edit"])
    put(top / "crates/small/must-fail/first.edit", f"file: src/lib.rt\nold: {SMALLER}\nnew: {GOOD['first'][1]}\n")
    put(top / ".gitignore", "out/\n")
    git(top, "init", "-q")
    status, lines = ran_with(top, ["--here"])
    well = [is_as_expected("a checkout that git doesn't know", lines, status == 1 and "--here needs" in lines[0])]
    git(top, "add", "-A")
    git(top, "commit", "-q", "-m", "Small")
    status, lines = ran_with(top, ["--here"])
    is_well = status == 1 and lines[-1] == "4 passed, 1 failed, 0 stale" and git(top, "status", "--porcelain") == ""
    well.append(is_as_expected("edits in the checkout", lines, is_well))
    put_edits(top, GOOD)
    (top / "crates/small/must-fail/first.edit").unlink()
    git(top, "add", "-A")
    git(top, "commit", "-q", "-m", "Good")
    status, lines = ran_with(top, ["--record", "--here", "small"])
    is_well = status == 0 and git(top, "status", "--porcelain") == f" M crates/small/{edit_records.RECORD}\n"
    well.append(is_as_expected("a record in the checkout", lines, is_well))
    return well


def commit_that_draws(top, crate):
    """Commits all files, and empty commits until one draws an edit of this crate. Returns the name of that edit."""
    git(top, "add", "-A")
    for number in itertools.count():
        git(top, "commit", "-q", "--allow-empty", "-m", f"Commit {number}")
        if names := drawn(crate, git(top, "rev-parse", "HEAD").strip()):
            return names.pop()


def as_in_the_gate(top):
    """Tries edits with the options of the gate, where all have records that fit. Returns whether each run is as
    expected."""
    well = []
    for crate in crates_at(top):
        label = f"{crate.name}/{commit_that_draws(top, crate)}"
        status, lines = ran_with(top, ["--here", "--changed", "--minutes=90"])
        is_well = status == 0 and any(it.startswith(f"{label}: refused") for it in lines)
        is_well = is_well and lines[-1] == "1 passed, 0 failed, 0 stale" and git(top, "status", "--porcelain") == ""
        well.append(is_as_expected(f"the gate, which draws {label}", lines, is_well))
    no_time = ["--here", "--minutes=0"]
    well.append(changed(top, "the gate without time", "0 passed, 1 failed, 0 stale", 1, no_time))
    put(top / "crates/small/src/lib.rt", CODE.replace("    ensures second { result ≤ y }\n", ""))
    small, _ = crates_at(top)
    commit_that_draws(top, small)
    stale, tried = "0 passed, 0 failed, 1 stale", "1 passed, 0 failed, 0 stale"
    well.append(changed(top, "a contract below that changed, no time", stale, 0, [*no_time, "pair"]))
    well.append(changed(top, "the same in a copy", stale, 0, ["--minutes=0", "pair"]))
    well.append(changed(top, "a contract below that changed", tried, 0, ["--here", "--minutes=90", "pair"]))
    return well


def sum_of_others(top, changes):
    """Returns the sum of what else decides whether an edit of a crate is rejected. The crate is above one that has
    these changes."""
    for path, text in SEEN_FILES.items():
        for file, old, new in changes:
            text = text.replace(old, new) if file == path else text
        put(top / "crates/small" / path, text)
    small, pair = crates_at(top)
    return edit_records.others_of({"small": small, "pair": pair})["pair"]


def sums():
    """Returns whether the sum of what else decides changes with what it is to have, and with nothing else."""
    well = []
    with tempfile.TemporaryDirectory(prefix="try-edits-test-") as room:
        top = pathlib.Path(room)
        before = sum_of_others(top, [])
        for is_seen, changes in ((True, SEEN_CHANGES), (False, UNSEEN_CHANGES)):
            for name, change in changes.items():
                is_well = SEEN_FILES[change[0]].count(change[1]) == 1
                is_well = is_well and (sum_of_others(top, [change]) != before) == is_seen
                well.append(is_as_expected(f"{'a' if is_seen else 'no'} change of the sum: {name}", before, is_well))
    return well


def order():
    """Returns whether edits that may be stale wait until all that must be tried have started."""
    small, pair = crates_at(".")
    other = Crate("other", [], set())
    must, waits, last = Job(1, pair, ["a"]), Job(1, small, ["b"]), Job(2, other, ["c"])
    cases = {
        "one that must be tried is first": startable([must, waits, last], []) == [must],
        "one that must be tried waits": startable([waits, last], [must]) == [],
        "the last that must be tried runs": startable([last], [waits]) == [last],
        "all that must be tried has ended": startable([last], []) == [last],
    }
    return [is_as_expected(name, "another order", is_well) for name, is_well in cases.items()]


def main():
    with tempfile.TemporaryDirectory(prefix="try-edits-test-") as room:
        top = pathlib.Path(room)
        for name, text in FILES.items():
            put(top / name, text)
        put_edits(top, {**GOOD, **BAD})
        status, lines = tried(top, GOOD)
        joint = sum(": refused (joint): " in it for it in lines)
        is_well = status == 0 and joint == 3 and lines[-1] == "3 passed, 0 failed, 0 stale"
        well = [*sums(), *order(), is_as_expected("good edits", lines, is_well)]
        for name, (_, _, output) in BAD.items():
            status, lines = tried(top, [name])
            is_well = lines[0].startswith(f"small/{name}: {output}") and lines[-1] == "0 passed, 1 failed, 0 stale"
            well.append(is_as_expected(name, lines, status == 1 and is_well))
        status, lines = tried(top, ["other", "misread", "larger"])
        is_well = status == 1 and lines[-1] == "2 passed, 1 failed, 0 stale"
        well.append(is_as_expected("a round with one that doesn't compile", lines, is_well))
        well += records(top)
        well += here(top)
        well += as_in_the_gate(top)
    return 0 if all(well) else 1


if __name__ == "__main__":
    os.environ.setdefault("RT_JOBS", "1")
    sys.exit(main())
