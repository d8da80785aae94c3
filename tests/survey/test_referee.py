"""Logs that are changed at random, judged by ./survey and by the referee of one log: the same line, but where the survey says why it doesn't
judge, or that the log is torn."""

import json
import random
import unittest

from desk.compare.command import MOST
from desk.compare.monitor import Run, Strays
from desk.log.standard import CannotGoOn
from tests import stations
from tests.compare.room import MARK, joined, woven
from tests.compare.test_monitor import bent
from tests.survey.planting import FolderTest, survey

LOGS, CALLS = 120, 60
UNJUDGED = ("is no call and has no answer", "looks like a layout line and is none")  # where the referee goes by the letter


def changed(rows, draw):
    """Lines with one or two changes of a kind that transport, people and stations make."""
    rows = list(rows)
    for _ in range(draw.choice((1, 1, 2))):
        place = draw.randrange(len(rows))
        answers = [place for place, row in enumerate(rows) if row.startswith(MARK)]
        way = draw.randrange(8)
        if way == 0 and answers:
            place = draw.choice(answers)
            rows[place] = bent(rows[place], draw)
        elif way == 1:
            del rows[place]
        elif way == 2:
            rows.insert(place, rows[draw.randrange(len(rows))])
        elif way == 3:
            rows.insert(place, draw.choice((b"", b"FF", b"> FF", b"> ", b">", b"# noted", b"0" * 26, b"> " + b"0" * 30, b"x" * 200)))
        elif way == 4:
            rows[place] = rows[place][:draw.randrange(len(rows[place]) + 1)]
        elif way == 5:
            rows[place] = rows[place] + draw.choice((b"\r", b" ", b"0"))
        elif way == 6:
            rows = rows[:place + 1]
        else:
            rows[place] = rows[place].lower()
        if not rows:
            return [b"FF"]
    return rows


class RefereeTest(FolderTest):
    def test_the_same_line(self):
        draw, counts = random.Random(44), {"strayed": 0, "right": 0, "torn": 0, "unjudged": 0}
        for number in range(LOGS):
            rows = changed(woven(stations.calls_of(CALLS, seed=number % 12)), draw)
            log = joined(rows)
            self.put(f"{number:04}.log", log[:-1] if draw.random() < 0.3 else log)
        for log in json.loads(survey("--json", self.folder)[1])["logs"]:
            counts[self.beside(log)] += 1
        self.assertTrue(all(count > 2 for count in counts.values()), counts)

    def beside(self, log):
        """One log beside the referee's word; gives what it was."""
        name, last = log["name"], len(open_lines(log["name"]))
        try:
            run = Run(name)
            strays = Strays(run, MOST)
            line = strays.line(strays.numbers[0]) if strays.numbers else None
        except CannotGoOn:
            self.assertIsNotNone(log["reason"], name)
            return "unjudged"
        if log["reason"]:
            self.assertTrue(line is not None and any(piece in log["reason"] for piece in UNJUDGED) or "copy" in log["reason"]
                            or "no call that is answered" in log["reason"] or "layout is refused" in log["reason"], (name, log["reason"], line))
            return "unjudged"
        if log["torn"]:
            self.assertTrue(line is not None and line >= last, (name, line, last))
            return "torn"
        self.assertEqual(log["strayed"], line, name)
        return "strayed" if line else "right"


def open_lines(path):
    """The lines of a file."""
    with open(path, "rb") as file:
        return file.read().rstrip(b"\n").split(b"\n")


if __name__ == "__main__":
    unittest.main()
