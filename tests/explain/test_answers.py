"""A log that carries a station's own answers: passed over where the monitor's run is told, and told themselves with --answers."""

import os
import random
import subprocess
import unittest

from desk.explain.page import Recording, page
from desk.explain.picture import Picture
from desk.explain.telling import Telling
from desk.explain.timeline import Timeline
from desk.log import woven
from desk.log.layout import PLAIN, Outfit
from desk.log.native import build, place_of
from tests import stations
from tests.compare.room import MARK, joined
from tests.compare.room import woven as weave
from tests.explain.room import EXAMPLES, HOME, VECTORS, Room, read
from tests.explain.test_program import entry, line

SHOPS = os.path.join(HOME, "examples", "shops")
READER = [entry(5, 2, "READ"), entry(4, 1, "SPELL"), *(line(6, p) for p in (1, 2))]
NONE = "No buffer is lost, nobody waits for an answer already withdrawn, no stranger is woken."


def tell(rows, outfit=PLAIN):
    """The rows of a station's own log, with single blanks, and its summary."""
    telling = Telling(outfit=outfit, own=True)
    told = [" ".join(telling.tell(taken).split()) for taken in woven.follow(rows, outfit)]
    return told, " ".join(telling.close().split())


def spoilt(rows, draw):
    """A station's log with thirty of its answers mixed up, bent or left out."""
    rows, answers = list(rows), [place for place, row in enumerate(rows) if row.startswith(MARK)]
    for place in draw.sample(answers, 30):
        at, digit = draw.randrange(len(MARK), len(rows[place])), bytes([draw.choice(b"0123456789ABCDEF")])
        rows[place] = draw.choice([rows[draw.choice(answers)], rows[place][:at] + digit + rows[place][at + 1:], None]) or rows[place][:1]
    return [row for row in rows if row != MARK[:1]]


def reader(*calls, outfit=PLAIN):
    """The lines of a right log of the reader's station."""
    return weave("".join([*READER, *calls]).encode(), outfit=outfit)


class PassedTest(unittest.TestCase):
    def setUp(self):
        self.room = Room().__enter__()
        self.addCleanup(self.room.__exit__)
        self.room.build()

    def said(self, *options, log=b""):
        run = self.room.run("explain", *options, log=log)
        self.assertEqual((run.returncode, run.stderr), (0, b""))
        return run.stdout.decode()

    def test_the_monitors_run_is_told(self):
        whole = self.said(os.path.join(SHOPS, "two.log"))
        self.assertNotIn("too long", whole)
        self.assertIn("62 lines marked '> ', the station's own, passed over: what is told is the monitor's run. ./compare --to-monitor LOG "
                      "judges them, ./explain --answers LOG tells them.", " ".join(whole.split()))
        calls = b"".join(row + b"\n" for row in read(os.path.join(SHOPS, "two.log")).split(b"\n") if row and not row.startswith(MARK))
        alone = self.said(log=calls)
        self.assertNotIn("passed over", alone)
        told = [[" ".join(row[5:].split()) for row in text.split("\n\nSummary")[0].split("\n")] for text in (whole, alone)]
        self.assertEqual(*told)

    def test_lines_keep_their_places(self):
        told = self.said("--refused", os.path.join(SHOPS, "two.log"))
        self.assertIn("   21  nobody  Send", told)

    def test_faults_are_told_each_where_answers_stand_between(self):
        told = self.said(log=joined(weave("".join([*READER, "X\n", "Y\n"]).encode())))
        self.assertEqual(told.count("No call (FF)"), 2)
        self.assertIn("behind it, up to line", self.said(log="".join([*READER, "X\n", "Y\n", "Z\n"]).encode()))

    def test_the_second_edition(self):
        log = joined(reader(line(10, 7), line(5, 7), line(10, 7), line(10, 7), outfit=Outfit(1, ())))
        told = " ".join(self.said("--edition", "1", log=log).split())
        self.assertIn("Interrupt from device 7: nobody waits for it, and it is kept.", told)
        self.assertIn("Wait for device 7: an interrupt was kept for it. READ runs on.", told)
        self.assertIn("one is kept already, since line 11.", told)
        self.assertIn("kept an interrupt from device 7; since line 11.", told)
        run = self.room.run("explain", log=log)
        self.assertEqual(run.returncode, 2)
        self.assertIn(b"in line 10 an interrupt was kept for device 7, so the station is of the second edition; --edition 1 says so.", run.stderr)

    def test_no_answers_to_tell(self):
        run = self.room.run("explain", "--answers", log="".join(READER).encode())
        self.assertEqual((run.returncode, run.stderr), (2, b"explain: the log carries no answers: each stands behind its call, marked with '> '.\n"))

    def test_answers_before_any_call(self):
        run = self.room.run("explain", "--answers", log=b"> " + b"0" * 30 + b"\n")
        self.assertEqual((run.returncode, run.stderr), (2, b"explain: line 1 is an answer, and no call stands before it.\n"))


class OwnTest(unittest.TestCase):
    """The station's own answers, right or wrong."""

    def test_right_logs_have_no_findings(self):
        for log, output in [(read(path), read(path[:-3] + ".out")) for path in VECTORS] + [(read(path), None) for path in EXAMPLES]:
            if b"\n" + MARK not in log:
                told, summary = tell(weave(log, output))
                self.assertTrue(NONE in summary or "The layout was refused" in summary, summary)
                self.assertNotIn("In the log", " ".join(told))

    def test_right_logs_of_every_outfit(self):
        for outfit in (PLAIN, Outfit(1, ()), Outfit(0, (1, 0)), Outfit(1, (3, 0))):
            self.assertIn(NONE, tell(weave(stations.calls_of(1500, outfit, seed=4), outfit=outfit), outfit)[1])

    def test_shop_two(self):
        told, summary = tell(read(os.path.join(SHOPS, "two.log")).splitlines())
        self.assertIn("buffers line 75: A buffer is lost: the listing of SPELL leaves out buffer 3: what SPELL sent to PRINT in line 65, orphaned "
                      "since line 73. line 80: A buffer is lost: SPELL sends in buffer 3, which is still open", summary)
        self.assertIn("A buffer is lost", next(row for row in told if row.startswith("80 ")))

    def last(self, answer, *calls):
        """What is told of the last call, its answer changed."""
        rows = reader(*calls)
        return tell([*rows[:-1], MARK + answer])[0][-1]

    def test_a_send_refused_while_a_buffer_is_free(self):
        self.assertIn("(the log doesn't show why). READ runs on. Nothing open. A buffer is lost: a send is refused for want of a buffer, and of the "
                      "2 buffers that READ owns the log leaves 2 free: 1, 2.", self.last(b"05" + b"0" * 28, line(1, 2, 0, 1)))

    def test_a_listing_of_what_is_not_open(self):
        rows = reader(line(11, 1))
        told = tell([*rows[:-1], MARK + b"00000100000001" + b"0" * 16, MARK + b"00020001000200010000"])[0][-1]
        self.assertIn("A listing isn't what the log leaves open: the listing of READ shows buffer 2, which is free since the layout.", told)
        rows = reader(line(1, 2, 0, 1), line(11, 1))
        told = tell([*rows[:-1], MARK + b"00010001000200020003"])[0][-1]
        self.assertIn("shows buffer 1 with standing 2 for 1, age 3 for 0.", told)

    def test_an_answer_that_can_not_be(self):
        for answer, words in ((b"00000000090001", "it names buffer 9, which there isn't"), (b"00000000010009", "it names process 9, which there isn't"),
                              (b"00000000000001", "it names buffer 0, which there isn't")):
            self.assertIn(f"An answer can't be: {words}.", self.last(answer + b"0" * 16, line(1, 2, 0, 1)))
        self.assertIn("there is no process 7, and the call is accepted", self.last(b"00000000000001" + b"0" * 16, line(7, 7)))
        self.assertIn("refused with 99 (63 in the replay), a number that no refusal has", self.last(b"63" + b"0" * 28, line(9)))

    def test_answers_missing_or_too_many(self):
        rows = reader(line(1, 2, 0, 1), line(11, 1))
        told, summary = tell([*rows[:7], *rows[8:]])
        self.assertIn("Send 0001 0000 0000 0000 to SPELL: no answer stands behind it.", told[-2])
        self.assertIn("answers no answer stands behind it: once, in line 7.", summary)
        self.assertIn("In the log its rows are 0, and its kind says 1.", tell(rows[:-1])[0][-1])
        self.assertIn("In the log more than one answer stands behind it.", tell([*rows[:8], rows[7], *rows[8:]])[0][-2])
        self.assertIn("the station took it for no call", tell([*rows[:7], MARK + b"FF"])[0][-1])

    def test_any_answer_at_all_is_told(self):
        outfit = Outfit(1, (0,))
        rows = weave(stations.calls_of(400, outfit, seed=9), outfit=outfit)
        zeros = [MARK + b"0" * (len(row) - 2) if row.startswith(MARK) else row for row in rows]
        nines = [MARK + b"00" + b"0009" * ((len(row) - 4) // 4) if row.startswith(MARK) else row for row in rows]
        mixed, answers = list(rows), [place for place, row in enumerate(rows) if row.startswith(MARK)]
        for place, other in zip(answers, answers[::-1]):
            mixed[place] = rows[other]
        for bad in (zeros, nines, mixed):
            self.assertIn("Summary", tell(bad, outfit)[1])

    def test_answers_spoilt_at_random_are_told_and_painted(self):
        draw, outfit = random.Random(3), Outfit(1, (1, 0))
        for seed in range(12):
            rows = spoilt(weave(stations.calls_of(120, outfit, seed=seed), outfit=outfit), draw)
            timeline = Timeline()
            recording = Recording(Telling(timeline, outfit=outfit, own=True))
            for taken in woven.follow(rows, outfit):
                recording.tell(taken)
            self.assertIn("Summary", recording.close())
            self.assertIn("</html>", "".join(page(recording, Picture(timeline))))


class RunTest(unittest.TestCase):
    """The program that runs a log where ./replay can't, held to ./replay where that can."""

    @classmethod
    def setUpClass(cls):
        build("run", "explain")
        cls.program = place_of("run")

    def test_every_log_of_the_replays_kind(self):
        for path in VECTORS:
            self.assertEqual(stations.answers_of(self.program, read(path)), read(path[:-3] + ".out"), path)

    def test_the_replay_itself(self):
        logs = [*(read(path) for path in EXAMPLES), stations.calls_of(3000), b"", b"\n", b"X" * 100000, "".join(READER).encode(),
                "".join(READER[:2]).encode()[:-1], bytes(range(256)) * 40, "".join(READER[:2] * 20 + READER).encode()]
        for log in logs:
            replay = subprocess.run([os.path.join(HOME, "replay")], input=log, stdout=subprocess.PIPE, check=True).stdout
            self.assertEqual(stations.answers_of(self.program, log), replay)

    def test_other_stations_beside_the_second_implementation(self):
        for seed, outfit in enumerate((Outfit(1, ()), Outfit(0, (0,)), Outfit(1, (32767, 0, 1)), Outfit(1, (1,) * 16))):
            log = stations.calls_of(3000, outfit, seed)
            rows = b"".join(row[len(MARK):] + b"\n" for row in weave(log, outfit=outfit) if row.startswith(MARK))
            self.assertEqual(stations.answers_of(self.program, log, outfit), rows)

    def test_words_it_does_not_know(self):
        for words in (["--edition"], ["--edition", "x"], ["--semaphores", ",".join("0" * 17)], ["--faster", "1"]):
            run = subprocess.run([self.program, *words], input=b"", capture_output=True, check=False)
            self.assertEqual((run.returncode, run.stdout, run.stderr.count(b"\n")), (2, b"", 1))


if __name__ == "__main__":
    unittest.main()
