"""Who is stuck behind whom at a log's end, as ./explain tells it."""

import unittest

from desk.explain.stuck import rings, stuck_told
from desk.explain.telling import Telling
from desk.log import lines
from desk.log.station import FOR_ANSWER
from tests.explain.room import EXAMPLES, VECTORS, Room, read
from tests.explain.test_explain import output_of

NAMES = "ABCDE"


def call(number, a=0):
    """A call's line, with its first part."""
    return f"{number:02X}{a:04X}{'0' * 20}"


def waits(*holders):
    """A log in which A, B and so on, with a buffer each, start one by one, send to the process named and wait for the
    answer; 0 is for one that stays running."""
    log = [f"0000010001{ord(name):02X}{'0' * 14}" for name in NAMES]
    for p, to in enumerate(holders, 1):
        log += [call(lines.START, p)] + ([call(lines.SEND, to), call(lines.WAIT_ANSWER, p)] if to else [])
    return log


def told_whole(log, output):
    """The telling once all lines are told."""
    telling = Telling()
    for line in lines.follow(log, output):
        telling.tell(line)
    return telling


def said(*log):
    """What the summary of a log says of those stuck, in one piece with single blanks."""
    data = "".join(line + "\n" for line in log).encode()
    return " ".join(told_whole(data, output_of(data)).close().partition("  stuck ")[2].split())


class StuckTest(unittest.TestCase):
    """The last part of the summary."""

    def test_chains_and_rings(self):
        ring = "a ring: only a stop or a clean of one of them ends it."
        cases = [
            ((2, 3, 0), "A behind B behind C, which runs."),
            ((2,), "A behind B, which is stopped."),
            ((2, 1), f"A behind B behind A, {ring}"),
            ((4, 1, 1, 3), f"A behind D behind C behind A, {ring} B behind A, which is in the ring of A."),
            ((3, 5, 4, 3, 2), f"B behind E behind B, {ring} C behind D behind C, {ring} A behind C, which is in the ring of C."),
            ((3, 3, 4), "A behind C behind D, which is stopped. B behind C behind D, which is stopped."),
        ]
        for holders, sentence in cases:
            with self.subTest(holders=holders):
                self.assertEqual(said(*waits(*holders)), sentence)

    def test_nobody_is_stuck(self):
        for log in ([], waits(), waits(0), [*waits(2, 0), call(lines.STOP, 1)]):
            with self.subTest(log=log):
                self.assertEqual(said(*log), "")

    def test_a_stop_of_any_member_ends_the_ring(self):
        for member in (1, 3, 4):
            for ending in (lines.STOP, lines.CLEAN):
                with self.subTest(member=member, ending=ending):
                    self.assertNotIn("ring", said(*waits(4, 1, 1, 3), call(ending, member)))

    def test_every_log_names_each_who_waits_in_80_columns(self):
        logs = [(path, read(path), read(path[:-3] + ".out")) for path in VECTORS]
        for path, log, output in logs + [(path, read(path), output_of(read(path))) for path in EXAMPLES]:
            with self.subTest(log=path):
                telling = told_whole(log, output)
                self.assertLessEqual(max(map(len, telling.close().split("\n"))), 80)
                if telling.station:
                    self.hold(telling.station, " ".join(stuck_told(telling.station)))

    def hold(self, station, row):
        """Who waits for an answer is named, and the rings are those who come up again from themselves."""
        for p, process in station.processes.items():
            self.assertLessEqual(process.state == FOR_ANSWER, station.name(p) in row)
        self.assertEqual({p for ring in rings(station) for p in ring}, {p for p in station.processes if awaits_itself(station, p)})


def awaits_itself(station, p):
    """Whether p waits, through others, for itself."""
    q = station.holder(p)
    for _ in station.processes:
        if q in (0, p):
            return q == p
        q = station.holder(q)
    return False


class CommandTest(unittest.TestCase):
    """The command itself."""

    def test_the_example(self):
        with Room() as room:
            room.build()
            run = room.run("explain", room.place("examples", "ring.log"))
            self.assertEqual((run.returncode, run.stderr), (0, b""))
            self.assertTrue(run.stdout.endswith(
                b"  stuck     READ behind SPELL behind PRINT behind READ, a ring: only a stop or a\n"
                b"              clean of one of them ends it.\n"
                b"            SHOW behind SPELL, which is in the ring of READ.\n"))

    def test_answers_that_break_off_say_nothing_of_it(self):
        with Room() as room:
            room.build("head -n 12 | " + room.stand_in.removeprefix("exec "))
            run = room.run("explain", room.place("examples", "ring.log"))
            self.assertEqual(run.returncode, 1)
            self.assertNotIn(b"Summary", run.stdout)
