"""Runs of our own through the program in source/ and the proved one, held to the stand-in: every call, every refusal that a run can reach, every odd input."""

import os
import random
import subprocess
import unittest

from tests import stand_in
from tests.explain.room import HOME

REPLAY = os.path.join(HOME, "replay")
PROGRAM = os.path.join(HOME, "target", "bin", "replay")  # what it runs with --proved
ENTRIES = [(5, 2, "READ"), (4, 3, "SPELL"), (4, 1, "SCRN"), (2, 0, "PRINT")]


def line(call, *parts):
    """A line of the log: the call's number and up to six words."""
    return "%02X" % call + "".join("%04X" % part for part in [*parts, 0, 0, 0, 0, 0, 0][:6]) + "\n"


def entry(priority, owns, name):
    """A layout entry's line."""
    letters = name.encode().ljust(6, b"\0")
    return line(0, priority, owns, *(int.from_bytes(letters[i:i + 2], "big") for i in (0, 2, 4)))


def layout(entries=ENTRIES):
    return "".join(entry(*one) for one in entries)


def expected(log):
    return "".join(one + "\n" for one in stand_in.replay(log)).encode()


def any_call(draw, most=5):
    """A call, most often one that has a chance to be accepted where processes and buffers are numbered up to the most."""
    call = draw.choice([1, 1, 2, 3, 3, 4, 5, 6, 6, 7, 8, 9, 9, 10, 11, 11, 12, 13, 14, 255])
    near = draw.choice([0, 1, 2, 3, 4, 5, 6, 7, 63, 64, 65535]) if draw.random() < 0.2 else draw.randint(1, most)
    words = [draw.randint(0, 65535) for _ in range(4)]
    if call in (1, 4):
        return line(call, near, 0, *words)
    if call > 11:
        return line(call, near, *draw.choice([(0, 0, 0, 0, 0), (1, *words)]))
    if call == 3:
        return line(call, draw.choice([0, 1, 2, 65535]))
    if call == 5:
        return line(call, draw.choice([0, 1, 63, 64]), draw.choice([0, 1, 2]))
    return line(call) if call == 9 else line(call, near)


class ProgramTest(unittest.TestCase):
    WORDS = ()

    def holds(self, log):
        log = log if isinstance(log, bytes) else log.encode()
        run = subprocess.run([REPLAY, *self.WORDS], input=log, stdout=subprocess.PIPE, check=True)
        self.assertEqual(run.stdout, expected(log))
        return run.stdout.decode().split("\n")

    def test_random_runs_reach_every_call_and_refusal(self):
        draw = random.Random(1)
        numbers, calls = set(), set()
        for _ in range(40):
            lines = [any_call(draw) for _ in range(400)]
            answers = self.holds(layout() + "".join(lines))
            numbers.update(answer[:2] for answer in answers if len(answer) == 30)
            calls.update(one[:2] for one in lines)
        self.assertEqual(numbers, {"00", "02", "03", "04", "05", "06", "07", "08", "09", "0D", "13"})
        self.assertLessEqual({"%02X" % call for call in range(1, 15)}, calls)

    def test_refused_layouts(self):
        start = line(6, 1)
        self.holds(start)
        self.holds(layout(ENTRIES * 2) + start + start)
        self.holds(layout([(0, 0, "A")]) + start)
        self.holds(layout([(256, 0, "A")]) + start)
        self.holds(layout([(1, 129, "A")]) + start)
        self.holds(layout([(1, 0x8000, "A"), (1, 0x8000, "B")]) + start)
        self.holds(layout([(1, 0, "")]) + start)
        self.holds(layout([(1, 0, "SIXSIX")]) + start)
        for count in (32, 33, 34, 1000):
            self.holds(layout([(1, 4 if count == 32 else 0, "P%d" % one) for one in range(count)]) + start + line(11, 1))

    def test_odd_input(self):
        for log in ("", "\n", "\n\n", "X", layout(), layout() + "\n", line(0)):
            self.holds(log)
        run = layout() + line(6, 1) + line(1, 2, 0, 1, 2, 3, 4) + line(11, 1)
        self.holds(run[:-1])
        self.holds(run.replace("\n", "\r\n"))
        self.holds(run.lower())
        self.holds(run.replace("\n", " \n"))
        self.holds(run + layout() + line(11, 2))
        self.holds(run + line(9, 1) + line(6, 1, 1) + line(3, 0, 0, 1) + line(12, 1, 2, 3, 4, 5, 6) + line(0, 0, 0, 0, 0, 0, 1))
        self.holds(run.encode() + bytes(range(256)) + b"\n" + b"\0" * 26 + b"\n" + run.encode())
        self.holds(run + "0" * 27 + "\n" + "0" * 25 + "\n" + "0" * 5_000_000 + "\n" + line(11, 1))

    def test_a_conversation_of_65535_ticks_grows_no_older(self):
        sent, older = layout() + line(6, 1) + line(1, 2, 0, 1, 2, 3, 4), line(9) + line(11, 2)
        answers = self.holds(sent + line(9) * 65533 + older * 3 + line(8, 2) + older)
        self.assertEqual([answer[12:] for answer in answers if len(answer) == 20], ["0001FFFE", "0001FFFF", "0001FFFF", "0003FFFF"])

    def test_ten_megabytes(self):
        draw = random.Random(2)
        piece = "".join(any_call(draw) for _ in range(4000))
        self.holds(layout() + piece * 93)


if __name__ == "__main__":
    unittest.main()


@unittest.skipUnless(os.path.exists(PROGRAM), "the proved replay isn't built")
class ProvedProgramTest(ProgramTest):
    """The same of the proved program."""

    WORDS = ("--proved",)
