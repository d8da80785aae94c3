"""./compare on two logs that carry answers: call by call, unless --lines asks otherwise."""

import os
import unittest

from tests import stations
from tests.compare.room import MARK, CompareRoom, joined, woven
from tests.explain.room import HOME, read

SHOPS = [os.path.join(HOME, "examples", "shops", name) for name in ("one.log", "two.log")]


class PairsTest(unittest.TestCase):
    def setUp(self):
        self.room = CompareRoom().__enter__()
        self.addCleanup(self.room.__exit__)
        self.room.put_program()

    def said(self, *logs, options=(), code=1):
        """What ./compare writes, in one piece with single blanks."""
        run = self.room.compare(*logs, options=options)
        self.assertEqual((run.returncode, run.stderr), (code, b""))
        return " ".join(run.stdout.decode().split())

    def test_the_two_shops(self):
        one, two = map(read, SHOPS)
        said = self.said(one, two)
        self.assertIn("Line 76 of both asked 0B000200000000000000000000 List the buffers of SPELL. first > 000002", said)
        self.assertIn("Line 82 of the first, 81 of the second asked 0100030000616761696E000000", said)
        self.assertIn("6 calls are answered otherwise.", said)
        self.assertEqual(self.said(one, two, options=["--numbers"]), "76 82 84 88 92 96")
        self.assertEqual(self.said(two, one, options=["--numbers"]), "76 81 83 87 91 95")
        self.assertEqual(len(self.said(one, two, options=["--numbers", "--lines"]).split()), 52)
        self.assertIn("Line 78 first", self.said(one, two, options=["--lines"]))

    def test_a_row_left_out_is_one_difference(self):
        rows = woven(stations.calls_of(400))
        place = [place for place, row in enumerate(rows) if len(row) == 22][1]
        self.assertEqual(len(self.said(joined(rows), joined(rows[:place] + rows[place + 1:]), options=["--numbers"]).split()), 1)
        self.assertEqual(self.said(joined(rows), joined(rows), code=0), "The logs agree.")

    def test_how_many_are_shown(self):
        rows = woven(stations.calls_of(40))
        bent = [row[:-1] + b"F" if row.startswith(MARK) else row for row in rows]
        for options, shown in (((), 10), (("--most", "3"), 3), (("--most", "0"), 0), (("--all",), 40)):
            said = self.said(joined(rows), joined(bent), options=options)
            self.assertEqual(said.count("asked"), shown)
            self.assertIn("40 calls are answered otherwise.", said)
            self.assertEqual(f"Not shown: {40 - shown} calls" in said, shown < 40)

    def test_other_calls_and_what_runs_on(self):
        rows = woven(stations.calls_of(20))
        other = [b"09" + b"0" * 24 if place == 5 else row for place, row in enumerate(rows)]
        said = self.said(joined(rows), joined([*other, b"09" + b"0" * 24, MARK + b"0" * 30]))
        self.assertIn("Line 6 of both first", said)
        self.assertIn("1 line that isn't marked differs.", said)
        self.assertIn(f"Line {len(rows) + 1}, which only the second log has second 09000000000000000000000000 Tick.", said)
        self.assertIn(f"The second log runs on from line {len(rows) + 1} with 1 line of calls.", said)

    def test_no_digit_of_an_answer_is_passed_over(self):
        rows = woven(stations.calls_of(6))
        for place, row in enumerate(rows):
            for at in range(len(MARK), len(row)):
                if row.startswith(MARK) and at % 3 == 0:
                    bent = row[:at] + (b"1" if row[at:at + 1] == b"0" else b"0") + row[at + 1:]
                    said = self.said(joined(rows), joined([*rows[:place], bent, *rows[place + 1:]]), options=["--numbers"])
                    self.assertEqual(said, str(place + 1))

    def test_ends_of_lines_do_not_hide(self):
        rows = woven(stations.calls_of(6))
        last = rows[-1]
        joint = [*rows[:-2], rows[-2] + b"\\n" + last]
        self.assertNotEqual(self.said(joined(rows), joined(joint), options=["--numbers"]), "")


if __name__ == "__main__":
    unittest.main()
