"""How far those walked that a call put into the running queue: as ./explain counts it and as the archive tells it."""

import os
import subprocess
import unittest

from desk.explain.telling import walked
from desk.log import lines
from desk.log.layout import entry_of
from desk.log.station import Station, Walk
from tests.explain.room import EXAMPLES, HOME, VECTORS, read, words_to_run
from tests.explain.test_explain import output_of

PROGRAM = os.path.join(HOME, "target", "monitor", "log_walks")


def followed(log, output):
    """The layout entries and calls of a log, and the walk of each call as the station counts it."""
    entries, calls, walks, station = [], [], [], None
    for line in lines.follow(log, output):
        if line.fault or line.call is None:
            continue
        if line.call.number == lines.LAYOUT:
            entries.append(entry_of(line))
        else:
            station = station or Station(entries)
            walks.append(station.take(line.call, line.answer).walk)
        calls.append(line.call)
    return calls, walks


def numbers(walk):
    """A walk as the archive's four numbers."""
    return (len(walk.passed), sum(walk.passed), max(walk.passed, default=0), walk.moved or 0)


class WalksTest(unittest.TestCase):
    """Walks counted, told and compared."""

    @unittest.skipUnless(os.path.exists(PROGRAM), "tests/run-monitor makes the program that asks the archive")
    def test_the_archive_tells_the_same_of_every_log(self):
        compared = 0
        logs = [(path, read(path), read(path[:-3] + ".out")) for path in VECTORS]
        logs += [(path, read(path), output_of(read(path))) for path in EXAMPLES]
        for path, log, output in logs:
            calls, walks = followed(log, output)
            if not walks:
                continue
            text = "".join(f"{call.number:x} {call.a:x} {call.b:x} {' '.join(f'{word:x}' for word in call.words)}\n"
                           for call in calls)
            told = subprocess.run(words_to_run(PROGRAM), input=text, capture_output=True, text=True, check=True).stdout.splitlines()
            with self.subTest(log=path):
                self.assertEqual([numbers(walk) for walk in walks], [tuple(map(int, line.split())) for line in told])
            compared += len(told)
        self.assertGreater(compared, 1000)

    def test_words(self):
        self.assertEqual(walked(Walk([], None)), [])
        self.assertEqual(walked(Walk([1], None)), ["Walk: who entered passed 1 record."])
        self.assertEqual(walked(Walk([0, 3, 2], 4)),
                         ["Walk: 3 entered and passed 5 records together, one of them 3; the move passed 4 records."])


if __name__ == "__main__":
    unittest.main()
