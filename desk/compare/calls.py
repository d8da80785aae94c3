"""Logs that carry answers, call by call: each call with its own answers is one thing, so that a row left out is one difference and
not one in every line behind it. What compares is proved: each call is written on a line of its own, its answers with it.
"""

import os
import tempfile
from collections import namedtuple

from desk.compare import program
from desk.log import lines
from desk.log.lines import MARK
from desk.log.standard import CannotGoOn
from desk.log.woven import grouped

# A line that is no answer, with its place, and the answers behind it without their marks. Answers at the head of a log have place 0
# and an empty line.
Group = namedtuple("Group", "place raw answers")


def read(path):
    """The lines of a log."""
    try:
        with open(path, "rb") as log:
            return lines.cut(log.read())
    except OSError as error:
        raise CannotGoOn(f"the file '{path}' can't be read: {error.strerror}.") from error


def groups_of(raws):
    """The calls of a log, each with its answers."""
    return [Group(place, raw or b"", answers) for place, raw, answers in grouped(raws)]


def one_line(group):
    """A call and its answers as one line, which no other gives: the ends of the lines are spelt."""
    spelt = b"\n".join([group.raw, *(MARK + answer for answer in group.answers)])
    return spelt.replace(b"\\", b"\\\\").replace(b"\n", b"\\n")


def differing(one, two):
    """The numbers, from 0, of the calls of two lists that differ or that only one has."""
    with tempfile.TemporaryDirectory() as folder:
        paths = [os.path.join(folder, name) for name in ("one", "two")]
        for path, groups in zip(paths, (one, two)):
            with open(path, "wb") as log:
                log.writelines(one_line(group) + b"\n" for group in groups)
        return [number - 1 for number in program.numbers(*paths)]


def line_of(group, other):
    """The line of a log in which a call's answers begin to be others: that of the first of them, or of the one that isn't there."""
    if group.raw != other.raw:
        return group.place
    pairs = zip(group.answers, other.answers)
    same = next((i for i, (a, b) in enumerate(pairs) if a != b), min(len(group.answers), len(other.answers)))
    return group.place + 1 + same


def apart(group, other):
    """The answers of a call that the other hasn't, in their order."""
    left = list(other.answers)
    mine = []
    for answer in group.answers:
        if answer in left:
            left.remove(answer)
        else:
            mine.append(answer)
    return mine
