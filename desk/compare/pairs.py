"""Two stations' logs that carry answers, compared call by call: each call that one of them answered otherwise, or that is another, in
words."""

import mmap
import os

from desk.compare import program
from desk.compare.beside import LOGS, how_many, is_odd, odd_told, printable, told
from desk.compare.calls import differing, groups_of, line_of, read
from desk.compare.strays import lines_told
from desk.log import lines, standard
from desk.log.alone import Names, told_alone

WHICH = "./compare --to-monitor LOG says which of the two strayed; --lines compares line by line"
MORE = "--all shows all, --most N another number, --numbers the line numbers alone"


def carries_answers(path):
    """Whether a file is a log that carries a station's answers: a marked line stands behind another."""
    if not os.path.isfile(path) or os.path.getsize(path) == 0:
        return False  # a pipe can be read only once
    with open(path, "rb") as log, mmap.mmap(log.fileno(), 0, access=mmap.ACCESS_READ) as data:
        return data.find(b"\n" + lines.MARK) >= 0 and data[:len(lines.MARK)] != lines.MARK


class Pairs:
    """Two logs call by call, and the numbers of the calls that differ."""

    def __init__(self, paths):
        self.groups = [groups_of(read(path)) for path in paths]
        self.names = [Names([group.raw for group in groups[:64]]) for groups in self.groups]
        self.numbers = differing(*self.groups)
        self.common = min(len(groups) for groups in self.groups)

    def pair(self, number):
        """A call of both logs."""
        return [groups[number] for groups in self.groups]

    def line(self, number):
        """The line of the first log that is told of a call; where it hasn't the call, that of the second."""
        if number < self.common:
            return line_of(*self.pair(number))
        return next(groups[number].place for groups in self.groups if number < len(groups))

    def told(self, number):
        """A call that differs, in words."""
        one, two = self.pair(number)
        places = [line_of(one, two), line_of(two, one)]
        where = f"Line {places[0]:,} of both" if places[0] == places[1] else f"Line {places[0]:,} of the first, {places[1]:,} of the second"
        yield where
        if one.raw == two.raw:
            yield f"  {'asked':<8}{printable(program.shown(one.raw))}"
            yield told(" " * 10, told_alone(one.raw, self.names[0]))
        for log, group, other, names in zip(LOGS, (one, two), (two, one), self.names):
            if one.raw != two.raw:
                yield f"  {log:<8}{printable(program.shown(group.raw))}"
                yield told(" " * 10, told_alone(group.raw, names))
            else:
                yield from lines_told(log, group, other, names)

    def alone(self, number):
        """A call that only one log has, in words."""
        log = 0 if number < len(self.groups[0]) else 1
        group = self.groups[log][number]
        yield f"Line {group.place:,}, which only the {LOGS[log]} log has"
        yield f"  {LOGS[log]:<8}{printable(program.shown(group.raw))}"
        yield told(" " * 10, told_alone(group.raw, self.names[log]))

    def texts(self, most):
        """The calls that differ and those that only one log has, a text each, as many as are wanted of either."""
        both = [number for number in self.numbers if number < self.common]
        yield from ("\n".join(self.told(number)) for number in both[:most])
        yield from ("\n".join(self.alone(number)) for number in self.numbers[len(both):][:most])

    def summary(self, most):
        """How many calls differ, what runs on, how many weren't shown, and what either log is that begins oddly."""
        yield from (odd_told(log, groups[0].raw) for log, groups in zip(LOGS, self.groups) if is_odd([groups[0].raw]))
        both = [self.pair(number) for number in self.numbers if number < self.common]
        answered = sum(one.raw == two.raw for one, two in both)
        others, behind = len(both) - answered, len(self.numbers) - len(both)
        if answered:
            yield told("", f"{how_many(answered, 'call')} {'is' if answered == 1 else 'are'} answered otherwise")
        if others:
            yield told("", f"{how_many(others, 'line')} that {'isn' if others == 1 else 'aren'}'t marked {'differs' if others == 1 else 'differ'}")
        if behind:
            longer = 0 if len(self.groups[0]) > self.common else 1
            place = self.groups[longer][self.common].place
            yield told("", f"The {LOGS[longer]} log runs on from line {place:,} with {how_many(behind, 'line')} of calls")
        hidden = max(0, len(both) - most) + max(0, behind - most)
        if hidden:
            yield told("", f"Not shown: {how_many(hidden, 'call')} of these. {MORE}")
        yield told("", WHICH)


def compare(wanted):
    """Compares two logs that carry answers; gives the exit code."""
    pairs = Pairs(wanted.logs)
    if wanted.numbers:
        texts = [str(pairs.line(number)) for number in pairs.numbers]
    elif not pairs.numbers:
        texts = ["The logs agree."]
    else:
        heads = "\n".join(f"{log:<6}  {path}" for log, path in zip(LOGS, wanted.names))
        texts = [f"{text}\n" for text in (heads, *pairs.texts(wanted.most))] + list(pairs.summary(wanted.most))
    for text in texts:
        standard.say(text)
    return program.DIFFER if pairs.numbers else program.SAME
