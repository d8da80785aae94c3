"""The program that judges, run on every core, and its findings in the order of the logs. No more logs are ahead than a few hundred, so
that memory is the same for any number of them."""

import os
import queue
import subprocess
from collections import deque, namedtuple
from concurrent.futures import ThreadPoolExecutor
from contextlib import suppress

from desk.log.cures import CURES
from desk.log.lines import BINARY_FAULT, NO_TEXT, RETURN_FAULT, cut, shape_fault
from desk.log.native import place_of
from desk.log.standard import CannotGoOn
from desk.survey.kinds import Stray, kind_of, why_not

PROGRAM = place_of("judge")
AHEAD = 256     # logs that may be judged before the first of them is told
SAMPLE = 4096   # bytes of a log by which a file is known that is none

# What was found of a log: its lines; up to the first stray its calls, ticks and conversations begun; the line it strayed at and the
# kind, or None; whether its last call is torn off; why it isn't judged, or None; and what copies of it have in common.
Finding = namedtuple("Finding", "log lines calls ticks conversations strayed kind torn reason same")
NO_ANSWERS = "it carries no answers, which stand behind their calls and are marked with '> '"


def cores():
    """How many cores there are for this."""
    return len(os.sched_getaffinity(0))


class Program:
    """The program that judges, waiting for a log."""

    def __init__(self):
        try:
            self.run = subprocess.Popen([PROGRAM], stdin=subprocess.PIPE, stdout=subprocess.PIPE)
        except OSError as error:
            raise CannotGoOn(f"'{PROGRAM}' can't be started: {error.strerror}.") from error

    def judge(self, log, progress):
        """The words of a finding."""
        outfit = log.settings.outfit
        words = (str(outfit.edition), ",".join(map(str, outfit.counters)))
        try:
            self.run.stdin.write(b"".join(os.fsencode(word) + b"\0" for word in (*words, log.path)))
            self.run.stdin.flush()
        except BrokenPipeError as error:
            raise CannotGoOn("the program that judges has ended.") from error
        for line in self.run.stdout:
            word, *rest = line.split()
            if word == b"done":
                return rest
            progress.at(log, int(rest[0]))
        raise CannotGoOn("the program that judges has ended.")


def odd(path):
    """What a file is that begins as no log does, and None of a log; an empty one begins with nothing."""
    with open(path, "rb") as file:
        sample = file.read(SAMPLE)
    fault = shape_fault(cut(sample)[0]) if sample else None
    fault = BINARY_FAULT if fault == RETURN_FAULT and NO_TEXT(sample) else fault  # a picture may begin with a line that ends in CR LF
    return CURES[fault][0] if fault in CURES else None


def unjudged(log, reason, lines=0, same=None):
    """A log that isn't judged."""
    return Finding(log, lines, 0, 0, 0, None, None, False, reason, same)


def stray_of(words):
    """The stray that the rest of a finding's words give."""
    line, place, laid, call, given, *tables = words
    raw, answers = (bytes.fromhex("" if word == b"-" else word.decode()) for word in (call, given))
    numbers = [[] if word == b"-" else [int(word[i:i + 4], 16) for i in range(0, len(word), 4)] for word in tables]
    return Stray(int(line), int(place), laid == b"1", raw, cut(answers), *numbers)


def reason_of(how, numbers, log):
    """Why a log isn't judged that was read to its end, or None."""
    lines, size, _, calls, _, _, torn, good, answers = numbers
    if size == 0:
        return "it is empty"
    strange = odd(log.path)
    if strange:
        return strange
    if good == 0:
        return "it is no log: none of its lines is a call or a layout line"
    if answers == 0 and (calls or torn or how == b"strayed"):
        return NO_ANSWERS
    if how == b"refused":
        return "its layout is refused, so that no call was served"
    return "it has no call that is answered" if calls == 0 and how != b"strayed" else None


def found(log, words):
    """The finding that the program's words give."""
    how, *rest = words
    numbers = [int(word) for word in rest[:9]]
    if how == b"unread":
        return unjudged(log, f"it can't be read: {os.strerror(numbers[0])}")
    lines, size, added, calls, ticks, conversations, torn, _, _ = numbers
    reason = reason_of(how, numbers, log)
    stray = stray_of(rest[9:]) if how == b"strayed" and reason is None else None
    reason = reason or (why_not(stray, log.settings.outfit) if stray else None)
    if reason:
        return unjudged(log, reason, lines, (size, added) if size else None)
    kind = kind_of(stray, log.settings.outfit) if stray else None
    return Finding(log, lines, calls, ticks, conversations, stray.line if stray else None, kind, bool(torn), None, (size, added))


class Judges:
    """The programs, one a core; a with-statement ends them."""

    def __init__(self, progress):
        self.programs, self.progress = [Program() for _ in range(cores())], progress
        self.free = queue.SimpleQueue()
        for program in self.programs:
            self.free.put(program)

    def __enter__(self):
        return self

    def __exit__(self, *_):
        for program in self.programs:
            program.run.terminate()
        for program in self.programs:
            with suppress(OSError):  # a request that the program didn't take any more
                program.run.stdin.close()
            program.run.stdout.close()
            program.run.wait()

    def judged(self, log):
        """The finding of one log, by whichever program is free."""
        if log.reason:
            return unjudged(log, log.reason)
        program = self.free.get()
        try:
            return found(log, program.judge(log, self.progress))
        except OSError as error:
            return unjudged(log, f"it can't be read: {error.strerror}")
        finally:
            self.free.put(program)
            self.progress.done(log)

    def findings(self, logs):
        """The findings of all logs, in their order; a copy of one that was told is told as that."""
        told, waiting = {}, deque()
        pool = ThreadPoolExecutor(len(self.programs))
        try:
            for log in logs:
                waiting.append(pool.submit(self.judged, log))
                if len(waiting) > AHEAD:
                    yield once(waiting.popleft().result(), told)
            while waiting:
                yield once(waiting.popleft().result(), told)
        finally:
            self.__exit__()
            pool.shutdown(wait=True, cancel_futures=True)


def once(finding, told):
    """A finding, or, where the same log was told already, that it is a copy."""
    if finding.reason or finding.same is None:
        return finding
    if finding.same not in told:
        told[finding.same] = finding.log.name
        return finding
    first = told[finding.same]
    return unjudged(finding.log, "it is named twice" if first == finding.log.name else f"it is a copy of {first}", finding.lines)
