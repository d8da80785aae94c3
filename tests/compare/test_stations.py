"""Stations of both editions, with semaphores and without, held to the proved monitor: right ones never stray, a changed word is told at
its call, and the three faults are named."""

import os
import random
import subprocess
import tempfile
import unittest

from desk.compare.command import MOST
from desk.compare.monitor import Run, Strays, fates_told, verdict
from desk.log.layout import PLAIN, Outfit
from desk.log.native import build
from desk.log.outfit import words_of
from tests import stations
from tests.compare.room import MARK, joined, woven
from tests.compare.test_monitor import NONE, bent
from tests.explain.room import HOME
from tests.explain.test_program import entry, line

OUTFITS = (PLAIN, Outfit(1, ()), Outfit(0, (1, 0)), Outfit(1, (2, 0, 1)))
SPELLERS = os.path.join(HOME, "examples", "dictionary", "spellers.log")
READER = [entry(5, 2, "READ"), entry(4, 1, "SPELL"), entry(3, 1, "PRINT"), *(line(6, p) for p in (1, 2, 3))]


def flat(texts):
    """Some lines in one piece with single blanks."""
    return " ".join(" ".join(texts).split())


class HeldTest(unittest.TestCase):
    """What ./compare --to-monitor does, with the proved monitor itself."""

    def setUp(self):
        above = tempfile.TemporaryDirectory()
        self.addCleanup(above.cleanup)
        self.folder = above.name
        build("run", "compare")
        build("compare", "compare")

    def command(self, path, *options):
        """The command itself: its exit code, what it says and what it complains of."""
        run = subprocess.run([os.path.join(HOME, "compare"), "--to-monitor", *options, path], capture_output=True, check=False)
        return run.returncode, flat(run.stdout.decode().split()), run.stderr.decode()

    def run_of(self, rows, outfit=PLAIN):
        """A log of these lines, held to the monitor."""
        path = os.path.join(self.folder, "station.log")
        with open(path, "wb") as log:
            log.write(joined(rows))
        run = Run(path, outfit)
        return run, Strays(run, MOST)

    def told(self, rows, outfit=PLAIN):
        """All that is said of a log."""
        run, strays = self.run_of(rows, outfit)
        return flat([*verdict(run, strays), *fates_told(run)])


class RightTest(HeldTest):
    def test_no_stray(self):
        for outfit in OUTFITS:
            rows = woven(stations.calls_of(4000, outfit), outfit=outfit)
            said = self.told(rows, outfit)
            self.assertIn("The station answered as the monitor does: 4,000 calls", said, outfit)
            self.assertIn(NONE, said)

    def test_the_outfit_is_named_where_it_is_missing(self):
        code, said, trouble = self.command(SPELLERS)
        self.assertEqual((code, said), (2, ""))
        self.assertIn("in line 23 semaphore 1 is lowered, so the station has semaphores; --semaphores N,N,.. says", trouble)
        code, said, _ = self.command(SPELLERS, "--semaphores", "1")
        self.assertEqual(code, 0)
        self.assertIn("The station answered as the monitor does: 45 calls, 45 lines of answers.", said)
        path = os.path.join(self.folder, "kept.log")
        log = "".join([*READER, line(10, 7), line(5, 7)]).encode()
        with open(path, "wb") as file:
            file.write(joined(woven(log, outfit=Outfit(1, ()))))
        code, said, trouble = self.command(path)
        self.assertEqual((code, said, trouble.count("\n")), (2, "", 1))
        self.assertIn("an interrupt was kept for device 7, so the station is of the second edition; --edition 1 says so.", trouble)
        self.assertEqual(self.command(path, "--edition", "1")[0], 0)

    def test_another_edition_or_other_counters_are_strays(self):
        log = "".join([*READER, line(10, 7), line(5, 7), line(12, 1)]).encode()
        rows = woven(log, outfit=Outfit(0, (1,)))
        self.assertIn("its kind is 0 where 3 is due", self.told(rows, Outfit(1, (1,))))
        self.assertIn("PRINT runs where SPELL should", self.told(woven("".join([*READER, line(12, 1), line(3), line(12, 1)]).encode(),
                                                                       outfit=Outfit(0, (1,))), Outfit(0, (2,))))


class ChangedTest(HeldTest):
    def test_a_hundred_changed_words(self):
        draw, count = random.Random(5), 0
        while count < 100:
            outfit = draw.choice(OUTFITS[1:])
            rows = woven(stations.calls_of(150, outfit, seed=count), outfit=outfit)
            for place in draw.sample([place for place, row in enumerate(rows) if row.startswith(MARK)], 10):
                run, strays = self.run_of([*rows[:place], bent(rows[place], draw), *rows[place + 1:]], outfit)
                self.assertEqual([strays.line(number) for number in strays.numbers], [place + 1], (outfit, count, place))
                self.assertIn(f"The station strayed at line {place + 1:,} of its log", flat(verdict(run, strays)))
                count += 1

    def test_numbers(self):
        rows = woven(stations.calls_of(60, OUTFITS[1]), outfit=OUTFITS[1])
        places = [place for place, row in enumerate(rows) if row.startswith(MARK + b"00") and len(row) == 32][5:40:6]
        for place in places:
            rows[place] = rows[place][:-1] + (b"1" if rows[place][-1:] == b"0" else b"0")
        path = os.path.join(self.folder, "changed.log")
        with open(path, "wb") as log:
            log.write(joined(rows))
        code, said, _ = self.command(path, "--numbers", *words_of(OUTFITS[1]))
        self.assertEqual((code, said), (1, " ".join(str(place + 1) for place in places)))
        _, said, _ = self.command(path, "--most", "3", *words_of(OUTFITS[1]))
        self.assertIn(f"{len(places) - 1} calls behind it strayed too, which may come of it.", said)
        self.assertIn(f"Not shown: {len(places) - 3} calls of these.", said)
        self.assertNotIn("Not shown", self.command(path, "--all", *words_of(OUTFITS[1]))[1])

    def test_a_row_left_out_is_one_stray(self):
        log = "".join([*READER, line(1, 2, 0, 1), line(1, 3, 0, 2), line(11, 1), line(9), line(11, 2), line(9)]).encode()
        rows = woven(log)
        place = next(place for place, row in enumerate(rows) if len(row) == 22)
        said = self.told(rows[:place] + rows[place + 1:])
        self.assertIn("the row of buffer 1 is left out", said)
        self.assertIn("No other strayed.", said)
        self.assertIn("A buffer is lost: the listing of READ leaves out buffer 1: what READ sent to SPELL in line 10, queued since line 10.", said)


class FaultsTest(HeldTest):
    """A plain C monitor, with the slips of docs/MONITOR.md, 6, and others put in."""

    def station(self, calls, *slips, outfit=PLAIN):
        """What is said of a station with slips that was asked these calls after the reader, the speller and the printer were started."""
        log = "".join([*READER, *calls]).encode() if isinstance(calls, list) else calls
        program = stations.build_station(self.folder, *slips)
        return self.told(woven(log, stations.answers_of(program, log, outfit)), outfit)

    def test_the_plain_monitor_is_right(self):
        for outfit in OUTFITS:
            said = self.station(stations.calls_of(2000, outfit, seed=2), outfit=outfit)
            self.assertIn("The station answered as the monitor does", said)
            self.assertIn(NONE, said)

    def test_a_buffer_is_lost(self):
        calls = [line(1, 2, 0, 1), line(3), line(3), line(8, 1), line(6, 1), line(1, 3, 0, 2)]
        said = self.station(calls, stations.FREES_HELD)
        self.assertIn("A buffer is lost: READ sends in buffer 1, which is still open: what READ sent to SPELL in line 10, orphaned since line 16, "
                      "is lost.", said)

    def test_a_stranger_is_woken(self):
        calls = [line(1, 2, 0, 1), line(1, 3, 0, 2), line(2, 2), line(3), line(4, 1)]
        said = self.station(calls, stations.WAKES_ANY)
        self.assertIn("A stranger is woken: READ runs, which by the log waits for an answer to buffer 2 since line 14.", said)
        said = self.station([*calls, line(2, 2)], stations.WAKES_ANY)
        self.assertIn("which may come of it. line 21 Wait for the answer to buffer 2; its number is 0 where 6 is due.", said)
        said = self.station([line(1, 2, 0, 1), line(2, 1), line(7, 2), line(4, 1)], stations.ANSWERED_BY_ANY, stations.ANSWERED_UNTAKEN)
        self.assertIn("A stranger is woken: PRINT answers buffer 1, which it doesn't hold: what READ sent to SPELL in line 10, queued since line 10; "
                      "READ wakes by it.", said)

    def test_waits_for_an_answer_already_withdrawn(self):
        calls = [line(1, 2, 0, 1), line(8, 2), line(2, 1)]
        said = self.station(calls, stations.DROPS_ANSWERS, stations.WAITS_FOR_FREE)
        self.assertIn("Waits for an answer already withdrawn: READ waits for the answer to buffer 1, which was withdrawn in line 12, when SPELL was "
                      "cleaned.", said)
        said = self.station([line(2, 1)], stations.WAITS_FOR_FREE)
        self.assertIn("Waits for an answer already withdrawn: READ waits for the answer to buffer 1, which is free since the layout.", said)
        said = self.station([line(1, 2, 0, 1), line(2, 1), line(8, 2)], stations.DROPS_ANSWERS)
        self.assertIn("Waits for an answer already withdrawn: READ waits on, and its answer is withdrawn in this line.", said)

    def test_a_station_that_has_forgotten_a_buffer(self):
        calls = [line(1, 2, 0, 1), line(3), line(3), line(8, 1)]
        said = self.station([*calls, line(4, 1)], stations.FREES_HELD)
        self.assertIn("A buffer is lost: SPELL's answer to buffer 1 is refused, and by the log it has what READ sent to SPELL in line 10, orphaned "
                      "since line 16.", said)
        said = self.station([*calls, line(8, 2)], stations.FREES_HELD)
        self.assertIn("A buffer is lost: the clean of SPELL changes no buffers, and by the log 1: 1.", said)
        said = self.station([line(1, 2, 0, 1), line(8, 2), line(2, 1)], stations.DROPS_ANSWERS)
        self.assertIn("A buffer is lost: READ's wait for the answer to buffer 1 is refused, and by the log it has what READ sent to SPELL in line 10, "
                      "answered since line 12.", said)

    def test_a_wait_that_goes_on_when_its_answer_is_withdrawn(self):
        said = self.station([line(1, 2, 0, 1), line(8, 2), line(3)], stations.DROPS_ANSWERS)
        self.assertIn("Waits for an answer already withdrawn: READ waits for an event, and buffer 1 lies ready, which was withdrawn in line 12, when "
                      "SPELL was cleaned.", said)
        calls = [line(3, 1), line(3), line(1, 2, 0, 1), line(3), line(3), line(2, 4), line(9), line(8, 2), line(3)]
        said = self.station(calls, stations.DROPS_ANSWERS)
        self.assertIn("line 26 Waits for an answer already withdrawn: PRINT waits on, and its answer was withdrawn in line 24.", said)

    def test_drawn_runs(self):
        for slips, fault in (((stations.FREES_HELD,), "A buffer is lost"), ((stations.WAKES_ANY,), "A stranger is woken"),
                             ((stations.DROPS_ANSWERS, stations.WAITS_FOR_FREE), "Waits for an answer already withdrawn")):
            said = self.station(stations.calls_of(1500, OUTFITS[3], seed=3), *slips, outfit=OUTFITS[3])
            self.assertIn("The station strayed at line", said)
            self.assertIn(fault, said)


if __name__ == "__main__":
    unittest.main()
