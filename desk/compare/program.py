"""Runs the program that compares, and takes its rows apart."""

import os
import subprocess
from collections import namedtuple

from desk.log.native import place_of
from desk.log.standard import CannotGoOn

PROGRAM = place_of("compare")
SAME, DIFFER, TROUBLE = 0, 1, 2

# A line that differs: its number, and the line of each log, None where the log hasn't one.
Differs = namedtuple("Differs", "number one two")
# A line as far as it is shown: its size, its first bytes, and its last.
Shown = namedtuple("Shown", "size bytes last")
# What runs on: the log's number, where it starts, its bytes and lines, and how many lines stand before it.
Rest = namedtuple("Rest", "log start size lines before")


def words(how, one, two, progress):
    """The program's command line. A log's name is never taken for an option."""
    paths = [path if os.path.isabs(path) else os.path.join(".", path) for path in (one, two)]
    return [PROGRAM, *(["--progress"] if progress else []), *how, *paths]


def numbers(one, two):
    """The numbers of the lines that differ."""
    run = subprocess.run(words(["--numbers"], one, two, False), stdout=subprocess.PIPE, check=False)
    end(run.returncode)
    return [int(number) for number in run.stdout.split()]


def end(code):
    """Takes the program's exit code; of trouble it has said what it is."""
    if code < 0:
        raise CannotGoOn(f"the program that compares was stopped by signal {-code}.")
    if code == TROUBLE:
        raise CannotGoOn


def line_of(field):
    """The line that a field of a row gives."""
    if field == "-":
        return None
    size, first, last = field.split(":")
    return Shown(int(size), bytes.fromhex(first), bytes.fromhex(last))


def shown(raw):
    """A line that is there whole."""
    return Shown(len(raw), raw, raw)


class Rows:
    """The rows of a comparison, handed out as they come; what runs on, the total and the code are there at the end."""

    def __init__(self, one, two, most, progress=False):
        self.words = words(["--rows", str(most)], one, two, progress)
        self.heads = {1: [], 2: []}
        self.rest, self.total, self.code = None, 0, TROUBLE

    def differing(self):
        """Each line that differs, as far as they are wanted. The heads are there before the first of them."""
        with subprocess.Popen(self.words, stdout=subprocess.PIPE, text=True) as run:
            for row in run.stdout:
                kind, *fields = row.split()
                if kind == "head":
                    self.heads[int(fields[0])].append(line_of(fields[1]).bytes)
                elif kind == "differs":
                    yield Differs(int(fields[0]), *(line_of(field) for field in fields[1:]))
                elif kind == "rest":
                    self.rest = Rest(*(int(field) for field in fields))
                else:
                    self.total = int(fields[0])
        self.code = run.returncode
        end(self.code)
