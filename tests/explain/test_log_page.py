"""docs/LOG.md holds: its examples are answered as it says, every call and every refusal comes up, and so does every line that its tables name.

The proved replay answers where it is built, the stand-in elsewhere. A block of the page begins a run, or goes on with the one before it.
"""

import os
import re
import subprocess
import unittest

from desk.log import lines
from desk.log.refusals import MEANINGS
from tests.explain.room import HOME, read
from tests.explain.test_program import PROGRAM, REPLAY, expected

PAGE = read(os.path.join(HOME, "docs", "LOG.md")).decode()
BLOCK = re.compile(r"^```log( goes on)?\n(.*?)^```$", re.DOTALL | re.MULTILINE)
MARK = "> "
UNREACHED = {1, 10, 12, 20}  # a replay's table is always sound and long enough, has room for every listing, and no semaphore


def chapters():
    """Each chapter's heading with its text."""
    pieces = re.split(r"^## (.*)$", PAGE, flags=re.MULTILINE)
    return dict(zip(pieces[1::2], pieces[2::2]))


def runs(text):
    """The runs of a text, each the rows of its blocks."""
    whole = []
    for goes_on, rows in BLOCK.findall(text):
        whole[-1:] = [whole[-1] + rows] if goes_on else whole[-1:] + [rows]
    return [run.splitlines() for run in whole]


def answers(log):
    """The replay's output for a log."""
    if not os.path.exists(PROGRAM):
        return expected(log)
    return subprocess.run([REPLAY, "--proved"], input=log, stdout=subprocess.PIPE, check=True).stdout


def woven(calls):
    """The calls, each with its answers behind it."""
    log = "".join(call + "\n" for call in calls).encode()
    rows, told = [], 0
    for line in lines.follow(log, answers(log)):
        place = line.place or len(calls)
        rows += calls[told:place] + [MARK + raw.decode() for raw in line.written]
        told = place
    return rows


def answered(text):
    """The pairs of call and first answer in a text's runs."""
    rows = [row for run in runs(text) for row in run]
    return [(call, answer.removeprefix(MARK)) for call, answer in zip(rows, rows[1:]) if answer.startswith(MARK) > call.startswith(MARK)]


class LogPageTest(unittest.TestCase):
    def test_every_run_is_answered_as_the_page_says(self):
        self.assertEqual(len(runs(PAGE)), len(re.findall(r"^```log$", PAGE, re.MULTILINE)))
        for run in runs(PAGE):
            with self.subTest(run=run[0]):
                self.assertEqual(woven([row for row in run if not row.startswith(MARK)]), run)

    def test_every_call_comes_up_and_is_accepted(self):
        told = chapters()["3. Every call"]
        self.assertEqual({call[:2] for call, answer in answered(told) if answer.startswith("00")}, {f"{call:02X}" for call in range(1, 12)})
        self.assertEqual(re.findall(r"^\| ([0-9A-F]{2}) \|", told, re.MULTILINE), [f"{call:02X}" for call in range(1, 12)])

    def test_every_refusal_is_told_and_brought_about(self):
        told = chapters()["4. Every refusal"]
        table = re.findall(r"^\| (\d+) \| (?:`(..)`)? ?\| .* \| (?:`(\w{26})`)? ?\|$", told, re.MULTILINE)
        self.assertEqual({int(number) for number, *_ in table}, set(MEANINGS))
        for number, digits, line in table:
            with self.subTest(refusal=number):
                if int(number) in UNREACHED:
                    self.assertEqual((digits, line), ("", ""))
                else:
                    self.assertEqual(digits, f"{int(number):02X}")
                    self.assertIn((line, digits + "0" * 28), answered(told))

    def test_every_line_that_is_no_call_is_answered_ff(self):
        self.assertEqual([answer for _, answer in answered(chapters()["5. Lines that are no calls"]) if answer != "FF"],
                         ["000000000000010000000000000000"])


if __name__ == "__main__":
    unittest.main()
