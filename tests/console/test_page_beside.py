"""The console's page beside ./console: its monitor, its language and its telling, over scripts drawn at random, mistakes and vectors."""

import glob
import json
import os
import unittest

from desk.console.console import statements_of
from desk.console.session import is_of_run
from desk.log import lines
from desk.log.lines import MARK
from tests.console.drawing import Drawing
from tests.console.paged import PageTest, by_console, latin, read
from tests.console.room import HOME
from tests.console.test_language import MistakesTest as Language

LOGS = sorted(glob.glob(os.path.join(HOME, "examples", "*.log"))) + sorted(glob.glob(os.path.join(HOME, "tests", "vectors", "replay", "*.in")))
MISTAKES = Language.MISTAKES
DRAWN = 400

del Language  # its tests are run where they stand


class BesideTest(PageTest):
    """The page beside ./console."""

    def same(self, scripts):
        """Each script comes to the same in both."""
        for script, page in zip(scripts, self.all_in_page(scripts)):
            console, faults = by_console(self.monitor, script), page.pop("faults")
            page["told"] = " ".join(page["told"].split())
            if faults:  # what is wrong with a line that is no call is told more shortly on the page
                page.pop("told"), console.pop("told")
            self.assertEqual(page, console, script)

    def test_drawn_scripts(self):
        self.same([Drawing(seed).script().split("\n") for seed in range(DRAWN)])

    def test_stations_at_work(self):
        self.same([Drawing(seed).station() for seed in range(DRAWN)])

    def test_every_mistake(self):
        head = ["process READ priority 5 buffers 2", "process SPELL priority 3"]
        scripts = [[*head, said] for said, _, _ in MISTAKES if not said.startswith("help")]
        self.same(scripts)
        self.assertTrue(all(one["mistake"] for one in self.all_in_page(scripts)))

    def test_refused_layouts(self):
        self.same([[*head, "tick", "tick"] for head in (
            [], ["process A priority 0"], ["process A priority 1"] * 40, ["process A priority 1 buffers 200"], ["edition 7", "process A priority 1"],
            ["semaphore 40000", "process A priority 1"], ['process "" priority 1'], [r'process "\x00A" priority 300'], ["process SIXSIX priority 1"])])

    def test_logs_and_vectors(self):
        for path in LOGS:
            data = read(path)
            self.assertTrue(all(map(is_of_run, statements_of(data)[0])))
            words = self.browser.value(f"station.logSaid(Uint8Array.from({json.dumps(latin(data))}, one => one.charCodeAt(0)))")
            [page] = self.all_in_page([words])
            self.assertEqual((page["bare"], page["mistake"]), (latin(data), None), path)
            if path.endswith(".in"):
                raws = lines.cut(data)
                due = [line.written for line in lines.follow(data, read(path[:-3] + ".out")) if not raws[line.place - 1].startswith(MARK)]
                answers = [line[2:] for line in page["log"].split("\n") if line.startswith("> ")]
                self.assertEqual(answers, [written.decode() for one in due for written in one], path)


if __name__ == "__main__":
    unittest.main()
