#!/usr/bin/env python3
"""Runs the steps of the gate one after another and writes how long each took.

usage: tools/gate_minutes.py [--table=FILE] STEP ..      (a step is a command with its words in one argument: 'rt ci')

Each step prints its own output as it runs. The tool stops at the first step that fails, and returns its status. It
writes a table with the processor minutes and the minutes of each step: to FILE as soon as a step has ended, or at the
end to standard output. The system counts the processor time of a step with all processes that it waited for. The last
line is 'N processor minutes in M', the sums over all steps.
"""
import resource
import shlex
import signal
import subprocess
import sys
import time


def taken_by_children():
    """Returns the processor minutes of all commands that ended so far, with those that they waited for."""
    used = resource.getrusage(resource.RUSAGE_CHILDREN)
    return (used.ru_utime + used.ru_stime) / 60


def timed(step):
    """Runs a step. Returns its status, its processor minutes and its minutes."""
    taken, began = taken_by_children(), time.monotonic()
    with subprocess.Popen(shlex.split(step)) as run:
        signal.signal(signal.SIGTERM, lambda *_: run.terminate())
        status = run.wait()
    return status, taken_by_children() - taken, (time.monotonic() - began) / 60


def table_of(rows):
    """Returns the table of these steps, each with its processor minutes and its minutes."""
    lines = ["| step | processor minutes | minutes |", "|---|---|---|"]
    lines += [f"| `{step}` | {processor:.1f} | {minutes:.1f} |" for step, processor, minutes in rows]
    processor, minutes = (sum(row[at] for row in rows) for at in (1, 2))
    return "\n".join([*lines, "", f"{processor:.0f} processor minutes in {minutes:.0f}", ""])


def main(words):
    tables = [it.removeprefix("--table=") for it in words if it.startswith("--table=")]
    rows, status = [], 0
    for step in (it for it in words if not it.startswith("--table=")):
        status, processor, minutes = timed(step)
        rows.append((step, processor, minutes))
        for table in tables:
            with open(table, "w", encoding="utf-8") as it:
                it.write(table_of(rows))
        if status:
            break
    if not tables:
        print(table_of(rows), end="", flush=True)
    return status if status >= 0 else 128 - status


if __name__ == "__main__":
    sys.exit(main(sys.argv[1:]) if sys.argv[1:] else __doc__)
