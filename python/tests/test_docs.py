"""The programs of docs/PYTHON.md print what the manual says."""
import importlib.util
import os
import pathlib
import re
import subprocess
import sys
import tempfile
import unittest

from . import TOP

MANUAL = TOP / "docs/PYTHON.md"
PROGRAM = re.compile(r"```python\n(.*?)```\n.*?```\n(.*?)```\n", re.DOTALL)
COMMAND = re.compile(r"^\$ (.*)\n((?:(?!\$ ).*\n)*)", re.MULTILINE)


class Manual(unittest.TestCase):
    def setUp(self):
        folder = tempfile.TemporaryDirectory()
        self.addCleanup(folder.cleanup)
        self.work = pathlib.Path(folder.name)
        (self.work / "ucd").symlink_to(TOP / "c/ucd")
        self.commands = {}
        for program, transcript in PROGRAM.findall(MANUAL.read_text(encoding="utf-8")):
            for command, shown in COMMAND.findall(transcript):
                words = command.split()
                if words[0] == "cat":
                    (self.work / words[1]).write_text(shown, encoding="utf-8")
                else:
                    (self.work / words[1]).write_text(program, encoding="utf-8")
                    self.commands[words[1]] = (words[1:], shown)

    def runs(self, name):
        words, shown = self.commands[name]
        path = os.pathsep.join([str(TOP / "python"), *filter(None, [os.environ.get("PYTHONPATH")])])
        done = subprocess.run(
            [sys.executable, "-B", *words], cwd=self.work, capture_output=True, timeout=60, check=False,
            env={**os.environ, "PYTHONPATH": path, "PYTHONIOENCODING": "utf-8"},
        )
        self.assertEqual(done.stdout.decode(), shown, done.stderr.decode())

    def test_example(self):
        self.runs("example.py")

    def test_faults(self):
        self.runs("faults.py")

    def test_cursor(self):
        self.runs("cursor.py")

    def test_resize(self):
        self.runs("resize.py")

    def test_show(self):
        self.runs("show.py")

    def test_all_cores(self):
        self.runs("all_cores.py")

    def test_dask(self):
        if importlib.util.find_spec("distributed") is None:
            self.skipTest("no Dask (package python3-distributed)")
        self.runs("dask_cores.py")
