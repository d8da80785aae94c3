"""The archive, called through tests/compare/call.c; and the comparison written a second time, from the request alone."""

import os
import shlex
import subprocess
from collections import namedtuple

HOME = os.path.dirname(os.path.dirname(os.path.dirname(os.path.abspath(__file__))))
CALLER = shlex.split(os.environ.get("COMPARE_CALLER", "")) or [os.path.join(HOME, "target", "compare-tests", "call")]

# Two logs, the words of the room, and a number of lines to cut behind.
Case = namedtuple("Case", "one two room lines")
# What the five functions give: number, count and room; the rest's log and start; the front; the lines of each log; the place
# behind so many lines of each.
Given = namedtuple("Given", "number count room log start front lines after")


def row(case):
    """A case as the caller reads it."""
    logs = [log.hex().upper() or "-" for log in (case.one, case.two)]
    return " ".join([*logs, str(len(case.room)), str(case.lines), *(str(word) for word in case.room)])


def given(answer):
    """What the caller wrote for a case."""
    number, count, log, start, front, *others = (int(word) for word in answer.split())
    return Given(number, count, others[4:], log, start, front, tuple(others[:2]), tuple(others[2:4]))


def call(cases):
    """What the archive gives for each case."""
    run = subprocess.run(CALLER, input="\n".join(row(case) for case in cases), capture_output=True, text=True, check=True)
    return [given(answer) for answer in run.stdout.splitlines()]


def cut(log):
    """A log's lines, each with its end where it has one."""
    *whole, last = log.split(b"\n")
    return [line + b"\n" for line in whole] + ([last] if last else [])


def numbers_of(one, two):
    """The numbers of the lines that differ, of two lists of lines."""
    bare = [[line.rstrip(b"\n") for line in lines] for lines in (one, two)]
    return [place + 1 for place in range(max(len(one), len(two))) if bare[0][place:place + 1] != bare[1][place:place + 1]]


def size(lines):
    """How many bytes some lines have."""
    return sum(len(line) for line in lines)


def front_of(one, two):
    """How many bytes the whole lines have that two lists of lines begin with."""
    count = 0
    while one[count:count + 1] == two[count:count + 1] and one[count:] and one[count].endswith(b"\n"):
        count += 1
    return size(one[:count])


def second(case):
    """What the functions should give for a case."""
    one, two = cut(case.one), cut(case.two)
    numbers = numbers_of(one, two)
    fits = len(numbers) <= len(case.room)
    shorter = min(len(one), len(two))
    return Given(
        number=0 if fits else 14, count=len(numbers) if fits else 0,
        room=numbers + case.room[len(numbers):] if fits else case.room,
        log=2 if len(two) > len(one) else 1, start=size((two if len(two) > len(one) else one)[:shorter]),
        front=front_of(one, two), lines=(len(one), len(two)), after=(size(one[:case.lines]), size(two[:case.lines])))
