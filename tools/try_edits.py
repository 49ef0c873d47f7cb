#!/usr/bin/env python3
"""Checks that the prover rejects wrong bodies, many in one check.

usage: tools/try_edits.py [--all] [--record] [--here] [--minutes=N] [CRATE | CRATE/EDIT ..]
       tools/try_edits.py --changed [--record] [--here] [--minutes=N] [CRATE ..]
       tools/try_edits.py --read [--all] [CRATE | CRATE/EDIT ..]
                                                    (at the top of the repository; with no name: every crate)

An edit is a file that describes a wrong body (docs/CHANGING.md). The tool takes the edits in crates/CRATE/wrong/ and,
with --all, those in must-fail/ too. A named edit may be in either folder. With --read it checks nothing and lists the
edits that can't be applied to the files as they are, or that don't parse then. It prints a line for each edit, and the
last line is 'N passed, M failed, K stale'. The status is 1 if any failed. An edit that was asked for and isn't decided
has failed: one that was not tried, or that a check with others didn't reject, so that it was to be tried again.

With --record the tool records each edit of wrong/ that was rejected, as soon as it is (edit_records.py): in the crate's
folder, with the sum of what the edit is (its text and the functions that it changes) and the sum of what else decides
whether it is rejected. With --changed the tool tries these edits of wrong/, in this order:

1. a tenth of all, drawn by the hash of the commit, so that a record that isn't true makes a run fail sooner or later;
2. those with no record, and those that are something else than what was recorded: these two kinds fail if the time ends
   before they are decided;
3. those for which only something else changed since they were recorded, in a drawn order of crates. Those that aren't
   decided in time are stale. The last line counts them, and they don't change the status. No crate begins with these
   as long as one hasn't begun with its edits of the first two kinds.

With --minutes=N it starts no check after N minutes, and the last that it started may end later.

The tool works in copies of crates/, crates.txt and HANDLES outside the checkout, and uses the commands of the kit
alone. So the checkout may change meanwhile. A check in a copy proves all crates below its own there. With --here the
tool works in the checkout itself, over what `rt check` and `rt lib` stored there, and puts back each file that it
changed. It starts only if all files of crates/ but records are committed.

Callers depend on contracts alone, so a wrong body hides no other. The tool applies the edits of a crate that change
different functions together, and runs one `rt check` over these functions and their callees. An edit passes there only
if two things hold:

- a goal of its own function is open: of a contract, of safety, or that a loop keeps its invariant, and not a missing
  invariant, measure or ghost value;
- no proof file of that function cites a missing name.

A second edit of the same function goes into a further check. The tool tries what was not rejected once more in the same
way, because a check may give up on a function that calls a wrong one. It tries the rest alone with `rt must-fail`, and
so each edit that changes no function. An edit passes there only if the kit says 'refused, as it must be' and adds no
reservation.

A rejected body says something only if the right body is proved. In the gate `rt ci` has proved it before. Here, each
callee that no edit changes must be proved, and so must the right code of one function of each crate, in the same copy
and over the same libraries. Otherwise all edits of the crate fail.

The tool works on as many crates at once as processors and memory allow, or RT_JOBS says. Each crate gets one job. A
check reads all crates below its own, so each job has its own copy. It takes next the crate that needs the fewest new
libraries there. With --here it works on two crates at once, of which none depends on the other, so that no wrong body
is ever below a crate that is checked. Then each check gets as many jobs. It begins with the highest crates.
"""
import concurrent.futures as futures
import contextlib
import dataclasses
import os
import re
import shutil
import signal
import subprocess
import sys
import tempfile
import threading
import time

import edit_records
from edit_files import Crate, applied, crates_here, files_of, function_at, names_in, read_edit, strays, unknown

BYTES_OF_A_CHECK = 5 << 30
CRATES_AT_ONCE = 2
OPEN = r"^fn {}::(\S+): (?:not proved|no proof)[^\n]*?did not prove (`[^`]*`)"
IN_PROOF = re.compile(
    r"^(?:\./)?proofs/(\S+)/(?:Answers|Invariants|Proof|Send)\.antt:\d+:\d+: error: ([^\n]*)", re.M)
STUCK = re.compile(r"(`[^`]*`): (.*)")
NOT_CHECKED = re.compile(r"\d+ declarations? that depends? on `[^`]*`, which was rejected")
NOTED = re.compile(r"^note: (?:\./)?(src/\S+?):(\d+):\d+: it is not proved that [^\n]*?\((`[^`]*`)\)", re.M)
NAMES_GONE = re.compile(r"has no field|has no `|is not in scope|was not admitted")
OF_PROOF = re.compile(r"`(?:invariant|decreases|ghosts)-")
MISREAD = re.compile(r"^(?:\./)?(src/\S+?):(\d+):\d+: error", re.M)
NO_FUNCTION = re.compile(r"error: `\w+` has no function `([^`]*)`")
REACHED = r"^crate {}: modules "
AS_IT_MUST = "refused, as it must be: "
printing = threading.Lock()
choosing = threading.Lock()
running = set()
is_ending = threading.Event()
proved = set()
ends_at = float("inf")


@dataclasses.dataclass
class Job:
    """Edits of one crate that are tried one after another, and what becomes of each: whether it was rejected. One that
    isn't decided isn't there. `turn` says which jobs come first. In the first two turns each edit must be decided."""

    turn: int
    crate: Crate
    files: list
    results: dict = dataclasses.field(default_factory=dict)
    faults: int = 0


class Records:
    """The records of the crates, in the checkout, for what is rejected from now on."""

    def __init__(self, crates):
        self.crates = crates
        self.others = edit_records.others_of(crates)
        self.known = {name: edit_records.recorded(it) for name, it in crates.items()}

    def sums(self, edit):
        """Returns the sums of an edit."""
        name = edit.label.partition("/")[0]
        return edit_records.sums_of(self.crates[name], edit, self.others[name])

    def note(self, edit, is_well):
        """Records that an edit of wrong/ was rejected, or removes its record if it wasn't."""
        crate, _, name = edit.label.partition("/")
        if not edit.file.startswith("wrong/"):
            return
        with choosing:
            self.known[crate].pop(name, None)
            if is_well:
                self.known[crate][name] = self.sums(edit)
            edit_records.record(self.crates[crate], self.known[crate])


def command(words, folder):
    """Runs a command of the kit in a folder. Returns its status, and what it said."""
    if is_ending.is_set():
        sys.exit()
    into = {"stdin": subprocess.DEVNULL, "stdout": subprocess.PIPE, "stderr": subprocess.STDOUT}
    with subprocess.Popen(["rt", *words], cwd=folder, encoding="utf-8", errors="replace", **into) as ran:
        running.add(ran)
        output, _ = ran.communicate()
        running.discard(ran)
    return ran.returncode, output


def check(crate, jobs, words):
    """Runs `rt check` over a crate. Returns the status and what was said."""
    return command(["check", "--jobs", str(jobs), *words], crate.folder)


def round_of(crate, edits):
    """Returns edits that change different things, as many as come first and can be put in together."""
    chosen, touched, texts = [], set(), {}
    for edit in edits:
        if touched & edit.touched:
            continue
        more, fault = applied(crate, edit.pairs, texts)
        if not fault:
            chosen.append(edit)
            touched |= edit.touched
            texts = more
    return chosen


def parts_of(path):
    """Returns the parts of a function's path without what marks a closure or a duplicate name."""
    return tuple(it.lstrip("+") for it in path if it != "fn")


def goals_of(crate, texts, output):
    """Returns the functions with an open goal of a contract, by path, and one such goal of each; and those of which a
    proof file is rejected for anything else, such as a missing name."""
    found = re.findall(OPEN.format(crate.name), output, re.M)
    goals = {parts_of(path.split("::")): goal for path, goal in found if not OF_PROOF.match(goal)}
    lost = set()
    for folder, error in IN_PROOF.findall(output):
        stuck = STUCK.match(error)
        if NOT_CHECKED.match(error):
            continue
        if not stuck or NAMES_GONE.search(stuck[2]):
            lost.add(parts_of(folder.split("/")))
        elif not OF_PROOF.match(stuck[1]):
            goals.setdefault(parts_of(folder.split("/")), stuck[1])
    for path, row, goal in NOTED.findall(output):
        function, _ = function_at(crate, path, texts.get(path) or crate.text(path), int(row) - 1)
        if function and not OF_PROOF.match(goal):
            goals.setdefault(function, goal)
    return goals, lost


def is_part(path, functions):
    """Returns whether a path is that of one of these functions, or of a closure in one."""
    return any(path[: len(it)] == it for it in functions)


def words_of(edits):
    """Returns the arguments with which a check looks only at the functions that these edits change."""
    paths = sorted({"::".join(path) for it in edits for path in it.functions})
    return [word for path in paths for word in ("--only", path)]


@contextlib.contextmanager
def without(crate, folder):
    """Takes the edits out of a folder of the crate, and at the end puts them back."""
    texts = {f"{folder}/{it}": crate.text(f"{folder}/{it}") for it in names_in(f"{crate.folder}/{folder}")}
    try:
        for path in texts:
            os.remove(f"{crate.folder}/{path}")
        yield
    finally:
        for path, text in texts.items():
            crate.put(path, text)


@contextlib.contextmanager
def put_in(crate, texts):
    """Puts these texts into the crate's files, and at the end the earlier ones again."""
    right = {path: crate.text(path) for path in texts}
    try:
        for path, text in texts.items():
            crate.put(path, text)
        yield
    finally:
        for path, text in right.items():
            crate.put(path, text)


def own_goal(edit, goals, lost):
    """Returns an open goal of a function that the edit changes, none if a proof file of one names what is gone."""
    if any(is_part(path, edit.functions) for path in lost):
        return None
    return next((goal for path, goal in goals.items() if is_part(path, edit.functions)), None)


def unread(crate, edits, texts, output):
    """Returns those of the edits for which a check did not come to the prover."""
    at = {function_at(crate, path, texts.get(path) or crate.text(path), int(row) - 1)[0]
          for path, row in MISREAD.findall(output)}
    at |= {tuple(path.split("::")) for path in NO_FUNCTION.findall(output)}
    return [it for it in edits if not at.isdisjoint(it.functions)]


def is_over():
    """Returns whether no further check is to start."""
    return time.monotonic() >= ends_at


def try_round(crate, jobs, edits, report):
    """Checks once what these edits change, all of them together, and says which are rejected. Returns the others."""
    texts, _ = applied(crate, [pair for it in edits for pair in it.pairs], {})
    with put_in(crate, texts):
        status, output = check(crate, jobs, words_of(edits))
    if not re.search(REACHED.format(crate.name), output, re.M):
        bad = unread(crate, edits, texts, output)
        rest = [it for it in edits if it not in bad]
        return bad + try_round(crate, jobs, rest, report) if bad and rest else edits
    if status != 1:
        return edits
    goals, lost = goals_of(crate, texts, output)
    changed = set().union(*(it.functions for it in edits))
    for path in sorted({*goals, *lost}):
        if not is_part(path, changed):
            report(None, False, f"{crate.name}: {'::'.join(path)} IS REFUSED, and no edit of its round changes it")
    missed = []
    for it in edits:
        if goal := own_goal(it, goals, lost):
            report(it, True, f"refused (joint): {goal}")
        else:
            missed.append(it)
    return missed


def in_rounds(crate, jobs, edits, report):
    """Tries each of these edits once, together with others, while there is time. Returns those that were not
    rejected."""
    missed, left = [], edits
    while left and not is_over():
        chosen = round_of(crate, left)
        missed += try_round(crate, jobs, chosen, report)
        left = [it for it in left if it not in chosen]
    return missed + left


def try_alone(crate, edit):
    """Tries one edit with `rt must-fail`. Returns whether it is rejected for what it says, and what to say."""
    name = edit.label.partition("/")[2]
    crate.put(f"must-fail/{name}.edit", edit.text)
    try:
        status, output = command(["must-fail", crate.name], crate.top)
    finally:
        os.remove(f"{crate.folder}/must-fail/{name}.edit")
    found = re.findall(rf"^rt: must-fail {re.escape(edit.label)}\.edit: (.*(?:\nsrc/.*)?)", output, re.M)
    if len(found) != 1:
        return False, f"NOT TRIED: {output.strip()[-500:]}"
    if status == 0 and found[0].startswith(AS_IT_MUST):
        return True, f"refused (singly): {found[0].removeprefix(AS_IT_MUST)}"
    return False, f"FAILED (singly): {found[0]}"


def try_edits(job, jobs, noted):
    """Tries the edits of a job, prints a line for each, and stores what became of it there."""
    crate = job.crate

    def report(edit, is_well, text):
        if edit:
            job.results[edit.label] = is_well
            noted(edit, is_well)
        else:
            job.faults += 1
        with printing:
            print(f"{edit.label}: {text}" if edit else text, flush=True)

    edits = [read_edit(crate, it) for it in job.files]
    for it in edits:
        if it.fault:
            report(it, False, f"BAD EDIT: {it.fault}")
    tried = [it for it in edits if not it.fault]
    if not tried or is_over():
        return
    if crate.folder not in proved and (output := unproved(crate, jobs, tried)):
        for it in tried:
            report(it, False, "NOT JUDGED")
        report(None, False, f"{crate.name}: its right code is not proved here: {output.strip()[-500:]}")
        return
    proved.add(crate.folder)
    joined = [it for it in tried if it.functions]
    missed = in_rounds(crate, jobs, joined, report)
    if len(missed) < len(joined):
        missed = in_rounds(crate, jobs, missed, report)
    with without(crate, "must-fail"):
        for it in [*missed, *(it for it in tried if not it.functions)]:
            if is_over():
                break
            report(it, *try_alone(crate, it))


def unproved(crate, jobs, edits):
    """Returns what a check says of the right code of a function that one of these edits changes, or of the whole crate
    if they change none; nothing if that is proved."""
    status, output = check(crate, jobs, words_of([it for it in edits if it.functions][:1]))
    return output if status else ""


def put_unparsed(crates, edits):
    """Writes into each of these edits whether the formatter can't parse what it makes of a file."""
    with tempfile.TemporaryDirectory() as top:
        copy = Crate("edited", [], set(), top)
        copy.put("../../crates.txt", "edited:\n")
        copy.put("../../HANDLES", "Handles allowed: none.\n")
        by_file = {}
        for number, edit in enumerate(edits):
            crate = crates[edit.label.partition("/")[0]]
            for path, text in applied(crate, edit.pairs, {})[0].items():
                if path.endswith(".rt"):
                    file = f"{number}_{path.removeprefix('src/').replace('/', '_')}"
                    copy.put(f"src/{file}", text)
                    by_file[file] = edit
        status, output = command(["fmt"], copy.folder)
    unparsed = re.findall(r"^\S*/(\d+_\S+\.rt): it does not parse: ([^\n]*)", output, re.M)
    if status and not unparsed:
        sys.exit(f"rt fmt over the wrong bodies failed:\n{output}")
    for file, reason in unparsed:
        by_file[file].fault = f"it does not parse: {reason}"


def read_all(crates, asked):
    """Says which edits can't be applied or don't parse, and returns the status."""
    edits = [read_edit(crates[name], it) for name, files in asked.items() for it in files]
    put_unparsed(crates, [it for it in edits if not it.fault])
    faults = [it for it in edits if it.fault]
    for it in faults:
        print(f"{it.label}: BAD EDIT: {it.fault}")
    print(f"{len(edits) - len(faults)} can be applied, {len(faults)} can't")
    return 1 if faults else 0


def from_above(crates):
    """Returns the names of the crates, each after all that depend on it."""
    return sorted(crates, key=lambda it: (-len(crates[it].below), it))


def turn_of(edit, chosen, records):
    """Returns the turn in which --changed tries an edit; none if its record fits."""
    crate, _, name = edit.label.partition("/")
    known, sums = records.known[crate].get(name), records.sums(edit)
    if edit.label in chosen:
        return 0
    if edit.fault or known is None or known.own != sums.own:
        return 1
    return None if known == sums else 2


def changed(crates, names, records):
    """Returns the jobs of --changed for these crates (without names: for all), and prints how many edits each has."""
    commit = edit_records.commit_here()
    edits = {name: [read_edit(crate, it) for it in files_of(crate, False, [])]
             for name, crate in crates.items()}
    chosen = edit_records.drawn([it.label for of_crate in edits.values() for it in of_crate], commit)
    jobs = []
    for name in (it for it in from_above(crates) if edits[it] and (not names or it in names)):
        by_turn = {turn: [] for turn in (0, 1, 2, None)}
        for it in edits[name]:
            by_turn[turn_of(it, chosen, records)].append(it.file)
        jobs += [Job(turn, crates[name], by_turn[turn]) for turn in (0, 1, 2) if by_turn[turn]]
        counts = [len(by_turn[turn]) for turn in (0, 1, 2)]
        print(f"{name}: of {len(edits[name])} {counts[0]} drawn, {counts[1]} changed, {counts[2]} stale", flush=True)
    order = edit_records.in_drawn_order(list(crates), commit)
    stale = sorted((it for it in jobs if it.turn == 2), key=lambda it: order.index(it.crate.name))
    return [*(it for turn in (0, 1) for it in jobs if it.turn == turn), *stale]


def lanes(count):
    """Returns how many of so many crates are tried at once."""
    memory = os.sysconf("SC_PAGE_SIZE") * os.sysconf("SC_PHYS_PAGES")
    most = int(os.environ.get("RT_JOBS") or min(os.cpu_count() or 1, memory // BYTES_OF_A_CHECK))
    return max(1, min(most, count))


def copied(top):
    """Copies the files of the repository that a check reads."""
    os.mkdir(top)
    shutil.copytree("crates", f"{top}/crates", ignore=shutil.ignore_patterns("out"))
    for name in ("crates.txt", "HANDLES"):
        if os.path.exists(name):
            shutil.copy(name, top)


def work_through(left, top, noted):
    """Tries in a copy the edits of one job after another, as long as some are left."""
    built = set()
    while True:
        with choosing:
            if not left:
                return
            job = min((it for it in left if it.turn == left[0].turn),
                      key=lambda it: it.turn < 2 and (len(it.crate.below - built), -len(it.files)))
            left.remove(job)
        built |= job.crate.below
        job.crate = dataclasses.replace(job.crate, top=top)
        try_edits(job, 1, noted)


def try_all(jobs, noted):
    """Tries the edits of all these jobs in copies."""
    left = list(jobs)
    with tempfile.TemporaryDirectory(prefix="try-edits-") as room:
        tops = [f"{room}/{number}" for number in range(lanes(len(jobs)))]
        for it in tops:
            copied(it)
        with futures.ThreadPoolExecutor() as workers, ending_all():
            list(workers.map(lambda top: work_through(left, top, noted), tops))


def are_related(crate, other):
    """Returns whether two crates are the same, or one of them depends on the other."""
    return crate.name == other.name or crate.name in other.below or other.name in crate.below


def startable(left, busy):
    """Returns the jobs that may start: those whose crate is related to that of no earlier job that hasn't ended, and
    none of the last turn as long as one of the first two hasn't started."""
    first = [it for it in left if it.turn < 2] or left
    return [job for at, job in enumerate(first)
            if not any(are_related(job.crate, it.crate) for it in [*busy, *first[:at]])]


def try_here(jobs, noted):
    """Tries the edits of all these jobs in the checkout."""
    run = subprocess.run(["git", "status", "--porcelain", "crates"], capture_output=True, text=True, check=False)
    strange = [it for it in run.stdout.splitlines() if not it.endswith(f"/{edit_records.RECORD}")]
    if run.returncode or strange:
        sys.exit(f"--here needs a checkout in which git knows all files of crates/ as they are\n{run.stdout}")
    left, busy = list(jobs), {}
    with futures.ThreadPoolExecutor(lanes(CRATES_AT_ONCE)) as workers, ending_all():
        while left or busy:
            for job in startable(left, busy.values())[: lanes(CRATES_AT_ONCE) - len(busy)]:
                left.remove(job)
                busy[workers.submit(try_edits, job, lanes(sys.maxsize), noted)] = job
            for it in futures.wait(busy, return_when=futures.FIRST_COMPLETED).done:
                del busy[it]
                it.result()


@contextlib.contextmanager
def ending_all():
    """Ends the commands that still run if the block ends early."""
    signal.signal(signal.SIGTERM, lambda *_: sys.exit(143))
    try:
        yield
    finally:
        is_ending.set()
        for it in list(running):
            it.terminate()


def status_of(jobs):
    """Prints how many edits passed, failed and are stale, and returns the status."""
    counts = {True: 0, False: sum(it.faults for it in jobs)}
    stale = 0
    for job in jobs:
        for is_well in job.results.values():
            counts[is_well] += 1
        if (undecided := len(job.files) - len(job.results)) and job.turn < 2:
            counts[False] += undecided
            print(f"{job.crate.name}: {undecided} NOT DECIDED in time, of those that must be")
        elif undecided:
            stale += undecided
            print(f"{job.crate.name}: {undecided} stale")
    print(f"{counts[True]} passed, {counts[False]} failed, {stale} stale")
    return 1 if counts[False] else 0


def main(words):
    global ends_at
    options = {it for it in words if it.startswith("--")}
    names = [it for it in words if it not in options]
    if minutes := next((it for it in options if re.fullmatch(r"--minutes=\d+", it)), None):
        options.remove(minutes)
        ends_at = time.monotonic() + 60 * int(minutes.partition("=")[2])
    crates = crates_here()
    if wrong := [*(options - {"--all", "--read", "--record", "--changed", "--here"}), *unknown(crates, names)]:
        sys.exit(f"no option, no crate and no edit: {' '.join(wrong)}\n\n{__doc__}")
    if "--changed" in options and (options & {"--all", "--read"} or any(it not in crates for it in names)):
        sys.exit(f"--changed takes crates, and neither --all nor --read\n\n{__doc__}")
    if lost := strays(crates):
        sys.exit(f"no edits of a crate, so nothing tries them: {' '.join(lost)}")
    asked = {it: files for it in from_above(crates) if (files := files_of(crates[it], "--all" in options, names))}
    if "--read" in options:
        return read_all(crates, asked)
    jobs = [Job(0, crates[name], files) for name, files in asked.items()]
    noted = lambda *_: None
    if options & {"--changed", "--record"}:
        records = Records(crates)
        jobs = changed(crates, names, records) if "--changed" in options else jobs
        noted = records.note if "--record" in options else noted
    (try_here if "--here" in options else try_all)(jobs, noted)
    return status_of(jobs)


if __name__ == "__main__":
    sys.exit(main(sys.argv[1:]))
