"""The program that serves the console's calls, over the translated monitor and over the proved archives: the same bytes for requests
drawn at random, with spoiled tables, layouts that are refused and every report among them. tests/run-console builds the second."""

import os
import random
import subprocess
import unittest

from desk.log.native import build
from desk.served.monitor import PROGRAM
from tests.console.room import HOME, LONGEST
from tests.explain.room import words_to_run

OVER_ARCHIVES = os.path.join(HOME, "target", "console-tests", "serve")
STATIONS, REQUESTS = 60, 250
PROCESS_WORDS, BUFFER_WORDS, HEADER_WORDS, SEMAPHORE_WORDS = 16, 10, 72, 4


class Requests:
    """Requests drawn at random, a station after the other; the table's length is followed, so that a word of it can be spoiled."""

    def __init__(self, seed):
        self.random = random.Random(seed)

    def words(self, letter, *words):
        return " ".join([letter, *(f"{word:04X}" for word in words)]) + "\n"

    def layout(self):
        """A station of some processes, buffers and semaphores; one in ten is refused."""
        draw = self.random
        entries = [(draw.choice((1, 3, 3, 5)), draw.randrange(4), 0x4100 + p, 0, 0) for p in range(draw.randint(1, 6))]
        counters = [draw.choice((0, 0, 1, 2, 32767)) for _ in range(draw.randrange(3))]
        edition = draw.randrange(2) if draw.random() > 0.1 else 2
        return self.words("L", edition, len(counters), *counters, *(word for entry in entries for word in entry))

    def call(self):
        """Any call, mostly of records that are there."""
        draw = self.random
        number = draw.choice((1, 1, 1, 2, 2, 3, 3, 3, 4, 4, 5, 6, 6, 6, 7, 8, 9, 9, 10, 11, 12, 13, 14, 0))
        words = [draw.choice((0, 0x7061, draw.randrange(65536))) for _ in range(4)]
        return self.words("C", number, draw.choice((0, 1, 1, 2, 2, 3, 4, 5, 6, 7, 63, 64, 65535)), draw.choice((0, 0, 1, 3)), *words)

    def request(self):
        """A call, or one of the reports."""
        report = self.words(*self.random.choice((("K", self.random.randrange(8)), ("R",), ("S",), ("F",), ("W",))))
        return report if self.random.random() < 0.2 else self.call()

    def all(self):
        """The requests of every station; each begins with layouts until one may have been accepted."""
        return "".join(self.layout() + "".join(self.request() for _ in range(REQUESTS)) for _ in range(STATIONS))


def answers(words, requests):
    """What a program answers to requests, and how it ends."""
    run = subprocess.run(words, input=requests.encode(), capture_output=True, timeout=LONGEST, check=False)
    return run.stdout.decode().split("\n"), run.returncode


class ServeTest(unittest.TestCase):
    def setUp(self):
        build("serve", "console")

    def test_what_is_no_request(self):
        for line in ("X\n", "C 0001\n", "C 0001 0001 0001 0001 0001 0001 000G\n", "L\n", "L 0000 0005\n", "W 0001\n", "S",
                     "T" + " 0000" * 1929 + "\n", "W  \n"):
            self.assertEqual(answers([PROGRAM], line)[1], 2, line)

    def test_words_that_are_no_table(self):
        laid = "L 0000 0000 0001 0001 4100 0000 0000\nW\n"
        words = answers([PROGRAM], laid)[0][1].split()
        spoiled = f"{laid}T {' '.join(['0009', *words[1:]])}\nC 0009 0000 0000 0000 0000 0000 0000\nS\nR\nK 0001\nT {' '.join(words)}\nS\n"
        told, code = answers([PROGRAM], spoiled)
        self.assertEqual([line.split()[0] for line in told[3:8]], ["0001", "0001", "0001", "0001", "0062"])
        self.assertEqual((told[8], code), (" 0000 0001 0000 0000 0000", 0))

    @unittest.skipUnless(os.path.exists(OVER_ARCHIVES), "the archives aren't linked: tests/run-console does that where the Rattle kit is")
    def test_the_archives_answer_alike(self):
        for seed in range(4):
            requests = Requests(seed).all()
            here, there = answers([PROGRAM], requests), answers(words_to_run(OVER_ARCHIVES), requests)
            self.assertEqual((here[1], there[1], len(here[0])), (0, 0, requests.count("\n") + 1))
            for request, one, two in zip(requests.split("\n"), *(told for told, _ in (here, there))):
                self.assertEqual(one, two, request)
            accepted = sum(line.startswith(" 0000") for line in here[0])
            self.assertGreater(accepted, len(here[0]) // 4)

    @unittest.skipUnless(os.path.exists(OVER_ARCHIVES), "the archives aren't linked: tests/run-console does that where the Rattle kit is")
    def test_spoiled_tables_alike(self):
        draw = random.Random(7)
        for seed in range(40):
            head = Requests(seed).layout() + "".join(Requests(seed).request() for _ in range(30)) + "W\n"
            words = answers([PROGRAM], head)[0][-2].split()
            if not words:
                continue
            for _ in range(3):
                words[draw.randrange(len(words))] = f"{draw.choice((0, 1, 2, 5, 65535)):04X}"
            requests = f"T {' '.join(words)}\n" + "".join(Requests(seed + 1000).request() for _ in range(20))
            self.assertEqual(answers([PROGRAM], requests), answers(words_to_run(OVER_ARCHIVES), requests), seed)


if __name__ == "__main__":
    unittest.main()
