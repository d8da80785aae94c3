"""Folders of logs that the second implementation made, and what is true of them; and the command, run on such."""

import json
import os
import subprocess
import tempfile
import unittest
from collections import namedtuple

from tests.explain.room import HOME

SHOPS = os.environ.get("SURVEY_SHOPS") or os.path.join(HOME, "target", "survey-tests", "shops")
LONGEST = 120  # seconds that a survey may take, also on a machine with much other work
KINDS = {"none": None, "lost": "buffer lost", "withdrawn": "answer withdrawn", "stranger": "stranger woken", "other": "another answer"}

# What is true of a log: the line of its first fault, or None, the kind, and what it has up to there.
Truth = namedtuple("Truth", "strayed kind calls ticks conversations")


def make(folder, first, logs, calls, edition=0, faults=0):
    """Has logs made in a folder; gives what is true of each, by its name."""
    os.makedirs(folder, exist_ok=True)
    words = [SHOPS, folder, *map(str, (first, logs, calls, edition)), *([str(faults)] if faults else [])]
    rows = subprocess.run(words, capture_output=True, text=True, check=True).stdout.splitlines()
    truths = {}
    for row in rows:
        name, line, kind, *counts = row.split()
        truths[name] = Truth(int(line) or None, KINDS[kind], *map(int, counts))
    return truths


def survey(*words, folder=HOME):
    """Runs the command; gives its exit code, what it says and what it complains of."""
    run = subprocess.run([os.path.join(HOME, "survey"), *words], stdin=subprocess.DEVNULL, capture_output=True, cwd=folder, timeout=LONGEST,
                         check=False)
    return run.returncode, run.stdout.decode(), run.stderr.decode()


class FolderTest(unittest.TestCase):
    """A test with a folder of its own."""

    def setUp(self):
        above = tempfile.TemporaryDirectory()
        self.addCleanup(above.cleanup)
        self.folder = above.name

    def place(self, *names):
        """A path in the folder."""
        return os.path.join(self.folder, *names)

    def put(self, name, data):
        """A file of the folder; gives its path."""
        os.makedirs(os.path.dirname(self.place(name)), exist_ok=True)
        with open(self.place(name), "wb") as file:
            file.write(data if isinstance(data, bytes) else data.encode())
        return self.place(name)

    def judged(self, *words):
        """The survey of the folder, as JSON."""
        code, said, trouble = survey("--json", *words, self.folder)
        self.assertEqual(trouble, "")
        found = json.loads(said)
        self.assertEqual(code, 1 if any(log["strayed"] or log["reason"] for log in found["logs"]) else 0)
        return found

    def reasons(self, *words):
        """Of each log of the folder why it isn't judged, by its name in it; None where it is."""
        return {os.path.relpath(log["name"], self.folder): log["reason"] for log in self.judged(*words)["logs"]}
