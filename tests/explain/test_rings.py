"""Rings through time: told where they close and end, summed up, bracketed in the picture, and drawn."""

import os
import random
import unittest
from xml.etree import ElementTree

from desk.explain.picture import Picture
from desk.explain.rings import Rings
from desk.explain.strips import strips
from desk.explain.stuck import rings
from desk.explain.telling import Telling
from desk.explain.timeline import Timeline
from desk.explain.waits import Places, Waits
from desk.log import lines
from tests import stand_in, stations
from tests.explain.room import HOME, Room, read
from tests.explain.test_program import entry, line

CLEANED = os.path.join(HOME, "examples", "ring-cleaned.log")
SVG = "{http://www.w3.org/2000/svg}"
NAMES = ("READ", "SPELL", "SCRN", "PRINT", "CLOCK", "TAPE", "PUNCH", "DISK")


def waiting(sends, more=()):
    """A log in which each process sends to another and waits for the answer, in their order, and then more calls."""
    log = [entry(9 - p, 1, NAMES[p]) for p in range(len(sends))] + [line(6, p + 1) for p in range(len(sends))]
    for p, receiver in enumerate(sends, 1):
        log += [line(1, receiver, 0, 1), line(2, p)]
    return "".join([*log, *more]).encode()


def tell(log, timeline=None, waits=None):
    """The rows of a log, with single blanks, the summary, and the telling."""
    telling = Telling(timeline)
    telling.waits = waits
    output = "".join(f"{one}\n" for one in stand_in.replay(log)).encode()
    rows = [" ".join(telling.tell(one).split()) for one in lines.follow(log, output)]
    return rows, " ".join(telling.close().split()), telling


class ToldTest(unittest.TestCase):
    def test_where_a_ring_closes_and_ends(self):
        rows, summary, _ = tell(read(CLEANED))
        told = [row.split()[0] + (" closes" if "A ring closes: READ > SPELL > PRINT > READ." in row else " gone") for row in rows
                if "ring closes" in row or "The ring is gone: READ > SPELL > PRINT > READ." in row]
        self.assertEqual(told, ["14 closes", "16 gone"])
        self.assertIn("rings READ > SPELL > PRINT > READ, from line 14 to line 16.", summary)

    def test_one_that_lasts_and_one_that_was_stopped(self):
        _, summary, _ = tell(waiting([2, 1, 4, 3], [line(7, 4), line(9)]))
        self.assertIn("rings READ > SPELL > READ, from line 12 on, and it is still there. SCRN > PRINT > SCRN, from line 16 to line 17.", summary)

    def test_every_ring_of_drawn_runs(self):
        """After each call the rings noted are those that there are."""
        closed = 0
        for seed in range(6):
            log = stations.calls_of(1200, seed=seed, processes=4)
            noted, telling = Rings(), Telling()
            for one in lines.follow(log, "".join(f"{row}\n" for row in stand_in.replay(log)).encode()):
                telling.tell(one)
                if one.call and one.call.number != lines.LAYOUT:
                    noted.note(one, telling.station)
                    self.assertEqual(set(noted.lasting), {tuple(ring) for ring in rings(telling.station)})
            closed += len(noted.all)
            self.assertEqual(noted.all, telling.rings.all)
        self.assertGreater(closed, 3)


class BracketTest(unittest.TestCase):
    def test_in_strips(self):
        timeline = Timeline()
        tell(waiting([2, 1, 4, 3], [line(9)] * 6 + [line(7, 1)] + [line(9)] * 6), timeline)
        pieces = [[(bracket.first, bracket.end, bracket.begins, bracket.ends, bracket.lane) for bracket in strip.brackets] for strip in strips(timeline, 10)]
        self.assertEqual(pieces, [[(7, 10, True, False, 0)], [(10, 18, False, True, 0), (11, 20, True, False, 1)],
                                  [(20, 25, False, False, 0)]])

    def test_in_the_picture(self):
        timeline = Timeline()
        tell(read(CLEANED), timeline)
        [sheet] = Picture(timeline).painted()
        self.assertEqual(sheet.count('<path class="round"'), 1)
        self.assertIn(">ring<", sheet)


class WaitsTest(unittest.TestCase):
    def drawn(self, log, at=None):
        waits = Waits(at)
        telling = tell(log, waits=waits)[2]
        return waits.end(telling.station)

    def texts(self, log, at=None):
        return [piece.text for piece in ElementTree.fromstring(self.drawn(log, at)).iter(f"{SVG}text")]

    def test_at_a_line_and_at_the_end(self):
        ring = "A ring: READ > SPELL > PRINT > READ. Only a stop or a clean of one of them ends it."
        self.assertIn(ring, self.texts(read(CLEANED), 15))
        self.assertIn(ring, self.texts(read(CLEANED), 14))
        self.assertNotIn(ring, self.texts(read(CLEANED), 13))
        self.assertNotIn(ring, self.texts(read(CLEANED), 16))
        self.assertIn("Nobody waits for an answer.", self.texts(read(CLEANED)))
        self.assertIn("Who waits for whom behind line 25", self.texts(read(CLEANED)))

    def test_every_process_once_and_an_arrow_each(self):
        draw = random.Random(1)
        for _ in range(60):
            sends = [draw.choice([q for q in range(1, 9) if q != p]) for p in range(1, 9)]
            count = draw.randint(2, 8)
            sends = [receiver for receiver in sends[:count] if receiver <= count]
            log = waiting([receiver if receiver <= len(sends) and receiver != p else p % len(sends) + 1 for p, receiver in enumerate(sends, 1)]
                          if len(sends) > 1 else [2, 1])
            telling = tell(log)[2]
            places, drawn = Places(telling.station), self.drawn(log)
            self.assertEqual(sorted([*places.at, *places.alone]), sorted(telling.station.processes))
            self.assertEqual(len(set(places.at.values())), len(places.at))
            arrows = drawn.count('class="arrow"') + drawn.count('class="round"')
            self.assertEqual(arrows, sum(bool(telling.station.holder(p)) for p in telling.station.processes))

    def test_the_command(self):
        with Room() as room:
            room.build()
            run = room.run("explain", "--summary", "--waits", room.place("w.svg"), "--line", "15", CLEANED)
            self.assertEqual((run.returncode, run.stderr), (0, b""))
            self.assertEqual(ElementTree.fromstring(read(room.place("w.svg"))).find(f"{SVG}title").text,
                             "ring-cleaned.log: who waits for whom behind line 15")
            run = room.run("explain", "--line", "15", CLEANED)
            self.assertEqual((run.returncode, run.stderr), (2, b"explain: --line goes with --waits; ./explain --help says how it is used.\n"))
            run = room.run("explain", "--waits", CLEANED, CLEANED)
            self.assertIn(b"is the log itself, which a drawing would destroy", run.stderr)
            run = room.run("explain", "--waits", room.place("none.svg"), os.path.join(HOME, "examples", "refused-layout.log"))
            self.assertEqual((run.returncode, run.stderr), (2, b"explain: the layout is refused, so there is nobody to draw.\n"))


if __name__ == "__main__":
    unittest.main()
