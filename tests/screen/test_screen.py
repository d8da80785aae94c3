"""What ./explain --screen shows is what the proved screen says, after every call of the vectors and examples."""

import os
import subprocess
import unittest

from desk.log import lines
from desk.log.layout import entry_of
from desk.log.station import Station
from tests import stand_in
from tests.explain.room import EXAMPLES, VECTORS, read

FOLLOWED = os.environ.get("SCREEN_FOLLOWED", "").split()


def answered(log):
    """The lines of a log that are calls, with their answers; those of the layout first. None where that is refused."""
    output = "".join(line + "\n" for line in stand_in.replay(log)).encode()
    taken = list(lines.follow(log, output))
    if any(line.call is None and line.fault is None for line in taken):
        return []
    return [line for line in taken if line.call]


def as_numbers(call):
    """A call as the program reads it."""
    return "%x %x %x %x %x %x %x\n" % (call.number, call.a, call.b, *call.words)


def by_archive(calls):
    """The screens that the archive fills, one for each call behind the layout."""
    run = subprocess.run(FOLLOWED, input="".join(map(as_numbers, calls)), stdout=subprocess.PIPE, text=True, check=True)
    screens = run.stdout.split("\n\n")
    return [[tuple(map(int, row.split())) for row in screen.split("\n")] for screen in screens if screen]


def by_station(answers):
    """The same as the reading of the log has them."""
    entries = [entry_of(line) for line in answers if line.call.number == lines.LAYOUT]
    station = Station(entries)
    for line in answers:
        if line.call.number != lines.LAYOUT:
            station.take(line.call, line.answer)
            yield [(p, process.state, station.queue_length(p), station.sent(p)) for p, process in station.processes.items()]


@unittest.skipUnless(FOLLOWED, "the program that follows a log isn't built; tests/run-screen builds it")
class ScreenTest(unittest.TestCase):
    def test_every_screen_of_vectors_and_examples(self):
        followed = 0
        for path in VECTORS + EXAMPLES:
            answers = answered(read(path))
            screens = by_archive([line.call for line in answers])
            with self.subTest(log=path):
                self.assertEqual(list(by_station(answers)), screens)
            followed += len(screens)
        self.assertGreater(followed, 1000)
