"""Logs of a station with semaphores, which have their answers in them: what is told of them, and what is refused."""

import os
import random
import unittest

from desk.explain.telling import Telling
from desk.explain.timeline import Timeline
from desk.log import lines, woven
from desk.log.layout import Outfit, entry_of
from desk.log.station import FOR_SEMAPHORE, Station
from tests import stand_in
from tests.explain.room import HOME, Room, read
from tests.explain.test_program import entry, line

SPELLERS = os.path.join(HOME, "examples", "dictionary", "spellers.log")
LAYOUT = [entry(3, 4, "READ"), entry(2, 0, "ANN"), entry(2, 0, "BEN")]
STARTS = [line(6, p) for p in (1, 2, 3)]
LOWER, RAISE = (line(call, 1) for call in (12, 13))


def weave(calls, counters=(1,)):
    """A log with the stand-in's answers behind its calls."""
    log = "".join([*LAYOUT, *calls]).encode()
    followed = lines.follow(log, "".join(one + "\n" for one in stand_in.replay(log, counters)).encode())
    raws = log.splitlines()
    return [piece for taken in followed for piece in (raws[taken.place - 1], *(b"> " + one for one in taken.written))]


def tell(calls, counters=(1,), timeline=None):
    """The rows of a log, with single blanks, and its summary."""
    outfit = Outfit(0, counters)
    telling = Telling(timeline, outfit=outfit, own=True)
    rows = [" ".join(telling.tell(taken).split()) for taken in woven.follow(weave(calls, counters), outfit)]
    return rows, " ".join(telling.close().split())


class ToldTest(unittest.TestCase):
    def last(self, calls, sentence, counters=(1,)):
        self.assertIn(sentence, tell([*STARTS, *calls], counters)[0][-1])

    def test_lower_and_raise(self):
        self.last([LOWER], "READ Lower semaphore 1: its counter is 0. READ runs on.")
        self.last([LOWER, line(3), LOWER], "ANN Lower semaphore 1: its counter is -1, ANN waits. BEN runs now.")
        self.last([LOWER, line(3), LOWER, RAISE], "BEN Raise semaphore 1: its counter is 0, ANN wakes. BEN runs on.")
        self.last([RAISE], "READ Raise semaphore 1: its counter is 2. READ runs on.")

    def test_a_waiter_is_stopped_or_cleaned_or_sent_to(self):
        waits = [LOWER, line(3), LOWER]
        self.last([*waits, line(7, 2)], "Stop ANN: ANN is stopped, the counter of semaphore 1 is 0.")
        self.last([*waits, line(8, 2)], "Clean ANN: ANN is stopped, the counter of semaphore 1 is 0.")
        self.last([LOWER, LOWER, line(6, 1)], "(READ waits for a semaphore)")
        self.last([line(3), LOWER, LOWER, line(12, 2), line(7, 2), line(6, 2)], "ANN joins the running queue", (1, 0))

    def test_refusals(self):
        self.last([line(12, 2)], "refused with 19 (13 in the replay), there is no such semaphore (semaphores are 1 to 1)")
        self.last([line(13, 0)], "there is no such semaphore (semaphores are 1 to 1)")
        self.last([RAISE], "refused with 20 (14 in the replay), the semaphore's counter is at its end", (32767,))

    def test_the_summary(self):
        summary = tell([*STARTS, LOWER, line(3), LOWER, LOWER])[1]
        self.assertIn("counters semaphore 1: -2, ANN, BEN waiting.", summary)
        self.assertIn("BEN for semaphore 1; since line 16.", summary)
        self.assertIn("counters semaphore 1: 5. semaphore 2: 0.", tell(STARTS, (5, 0))[1])

    def test_the_picture(self):
        timeline = Timeline()
        tell([*STARTS, LOWER, line(3), LOWER, line(9)], timeline=timeline)
        looks = {stretch.look: stretch.labels for stretch in timeline.stretches()[0] if stretch.process == 2}
        self.assertEqual(looks["semaphore"], ("semaphore 1", "sem 1"))
        self.assertEqual([column.title for column in timeline.columns][-4::2], ["lower 1", "lower 1"])


class FollowedTest(unittest.TestCase):
    """Who waits at which semaphore follows from calls and answers alone."""

    def agrees(self, monitor, station):
        for p, process in station.processes.items():
            self.assertEqual(process.state, monitor.processes[p]["state"])
        for s, semaphore in station.semaphores.items():
            self.assertEqual((semaphore.counter, semaphore.waiters), (monitor.semaphores[s]["counter"], monitor.semaphores[s]["waiters"]))
        return sum(process.state == FOR_SEMAPHORE for process in station.processes.values())

    def test_random_runs(self):
        draw, waited = random.Random(1), 0
        for _ in range(30):
            counters = [draw.choice([0, 1, 2, 32766]) for _ in range(draw.randint(1, 3))]
            entries = [entry_of(lines.read_line(1, one.strip().encode(), False)) for one in LAYOUT]
            monitor = stand_in.Monitor([[one.priority, one.buffers, *one.name] for one in entries], counters)
            station = Station(entries, Outfit(0, counters))
            for _ in range(300):
                number, a = draw.choice([1, 2, 3, 4, 5, 6, 6, 6, 7, 8, 9, 10, 12, 12, 12, 13, 13, 13]), draw.randint(1, 4)
                try:
                    kind, buffer, words, _ = monitor.call(number, a, 0, [0, 0, 0, 0])
                    answer = lines.Answer(0, kind, buffer, monitor.current(), tuple(words))
                except stand_in.Refused as refusal:
                    answer = lines.Answer(refusal.args[0], 0, 0, 0, (0, 0, 0, 0))
                station.take(lines.Call(number, a, 0, (0, 0, 0, 0)), answer)
                waited += self.agrees(monitor, station)
        self.assertGreater(waited, 1000)

    def test_the_example_is_a_run(self):
        raws = read(SPELLERS).splitlines()
        calls = b"".join(raw + b"\n" for raw in raws if not raw.startswith(b"> "))
        self.assertEqual([b"> " + one.encode() for one in stand_in.replay(calls, (1,))], [raw for raw in raws if raw.startswith(b"> ")])


class CommandTest(unittest.TestCase):
    """The command, with the stand-in in the place of the monitor."""

    def setUp(self):
        self.room = Room().__enter__()
        self.addCleanup(self.room.__exit__)
        self.room.build()

    def refused(self, sentence, log, *options):
        run = self.room.run("explain", *options, log=log)
        self.assertEqual((run.returncode, run.stderr.decode()), (2, f"explain: {sentence}\n"))

    def test_told_and_shown(self):
        for options in ((), ("--answers",)):
            run = self.room.run("explain", "--semaphores", "1", *options, SPELLERS)
            self.assertEqual((run.returncode, run.stderr), (0, b""))
            self.assertIn(b"Stop BEN: BEN is stopped, the counter of semaphore 1 is 0.", b" ".join(run.stdout.split()))
            screen = self.room.run("explain", "--semaphores", "1", "--screen", *options, SPELLERS)
            self.assertIn("BEN    waits    semaphore 1", screen.stdout.decode())

    def test_the_option_is_named_where_it_is_missing(self):
        sentence = ("in line {} semaphore 1 is lowered, so the station has semaphores; --semaphores N,N,.. says with which counters they begin.")
        self.refused(sentence.format(22), read(SPELLERS), "--answers")
        run = self.room.run("explain", log=read(SPELLERS))
        self.assertEqual((run.returncode, run.stderr.decode()), (2, f"explain: {sentence.format(23)}\n"))

    def test_a_log_of_calls_alone_has_none(self):
        log = "".join([*LAYOUT, *STARTS, LOWER]).encode()
        self.assertIn(b"refused with 19", self.room.run("explain", log=log).stdout)
        self.assertIn(b"its counter is 0.", self.room.run("explain", "--semaphores", "1", log=log).stdout)

    def test_counters_that_can_not_be(self):
        sentence = "--semaphores: {}; ./explain --help says how it is used."
        self.refused(sentence.format("a counter is a number from 0 to 32767"), b"", "--semaphores", "1,32768")
        self.refused(sentence.format("a counter is a number from 0 to 32767"), b"", "--semaphores", "1,x")
        self.refused(sentence.format("there are 16 semaphores at most"), b"", "--semaphores", ",".join(["0"] * 17))
        self.refused("--edition: an edition is a number from 0 to 1; ./explain --help says how it is used.", b"", "--edition", "2")
