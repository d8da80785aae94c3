"""What a survey writes: the table, the rates, the note, CSV, JSON and the picture, at several widths; and how long it takes."""

import csv
import io
import json
import os
import re
import signal
import subprocess
import time
import unittest
from xml.etree import ElementTree

from desk.survey.chart import chart_of
from desk.survey.files import Log
from desk.survey.judging import Finding, Judges
from desk.survey.kinds import KINDS
from desk.survey.note import note
from desk.survey.progress import Progress
from desk.survey.rates import ANY, Survey
from desk.survey.settings import Settings
from desk.survey.table import Table
from tests.explain.room import HOME, read
from tests.survey.planting import LONGEST, FolderTest, make, survey

SHOPS = os.path.join("examples", "shops")
MANY, LINES, MOST_SECONDS = 1000, 10000, 60
MOST_GROWTH = 8 * 1024  # kilobytes of memory that ten times as many logs may take more


def surveyed(*rows):
    """A survey of findings: shop, month, conversations, ticks, kind or None."""
    found = Survey()
    for number, (shop, month, conversations, ticks, kind) in enumerate(rows):
        log = Log(f"{number}.log", f"{number}.log", 1, Settings(None, shop, month), None)
        found.take(Finding(log, 1, conversations, ticks, conversations, 5 if kind else None, kind, False, None, number))
    return found


class TableTest(FolderTest):
    def test_the_table(self):
        code, said, trouble = survey(SHOPS)
        rows = said.splitlines()
        self.assertEqual((code, trouble), (1, ""))
        self.assertEqual([row.split() for row in rows[3:7]], [
            ["log", "calls", "ticks", "begun", "line", "kind"], ["examples/shops/one.log", "59", "6", "5", "-"],
            ["examples/shops/two.log", "36", "2", "4", "76", "buffer", "lost"], ["together", "95", "8", "9", "1", "strayed"]])
        self.assertLessEqual(max(map(len, rows)), 80)
        self.assertIn("".join(f"    {row}\n" for row in rows[3:7]), read(os.path.join(HOME, "docs", "SURVEY.md")).decode())
        self.assertIn("1 in 9 conversations: about 11 in 100, and between less than 1 and 62 with 95 in 100 certainty.", " ".join(said.split()))
        self.assertNotIn("one.log", survey("--rates", SHOPS)[1])
        self.assertEqual(survey(os.path.join(SHOPS, "one.log"))[0], 0)

    def test_long_names_are_cut(self):
        make(self.place("a" * 60), 1, 1, 50)
        rows = survey(self.folder)[1].splitlines()
        self.assertTrue(rows[4].startswith("..a"))
        self.assertLessEqual(max(map(len, rows)), 80)

    def test_narrow_terminals(self):
        log = Log("x", "a" * 50 + "/may.log", 1, Settings(None, "Miller", None), None)
        finding = Finding(log, 1, 1234567, 89012, 34567, 1234567, "answer withdrawn", False, None, 1)
        found = Survey()
        found.take(finding)
        for width in (40, 60, 66, 80, 120):
            table = Table([log], width)
            text = "\n".join([table.heading(), table.of(finding), table.total(found.all), *table.rates(found)])
            self.assertLessEqual(max(map(len, text.split("\n"))), width)
            for piece in ("may.log", "1,234,567", "89,012", "34,567", "answer withdrawn", "1 strayed"):
                self.assertIn(piece, text)

    def test_csv(self):
        rows = list(csv.DictReader(io.StringIO(survey("--csv", SHOPS)[1])))
        self.assertEqual([(row["log"], row["conversations"], row["strayed"], row["kind"], row["reason"]) for row in rows],
                         [("examples/shops/one.log", "5", "", "", ""), ("examples/shops/two.log", "4", "76", "buffer lost", "")])
        rates = list(csv.DictReader(io.StringIO(survey("--csv", "--rates", SHOPS)[1])))
        self.assertEqual(len(rates), 3 * 2 * len((*KINDS, ANY)))
        self.assertEqual((rates[0]["kind"], rates[0]["unit"], rates[0]["seen"], rates[0]["watched"]), ("buffer lost", "conversations", "1", "9"))
        self.assertAlmostEqual(float(rates[0]["high"]), 5.5716 / 9, 4)

    def test_json(self):
        found = json.loads(survey("--json", SHOPS)[1])
        self.assertEqual([(log["name"], log["calls"], log["ticks"], log["conversations"], log["strayed"], log["kind"]) for log in found["logs"]],
                         [("examples/shops/one.log", 59, 6, 5, None, None), ("examples/shops/two.log", 36, 2, 4, 76, "buffer lost")])
        self.assertEqual([rate["kind"] for rate in found["rates"]], [*KINDS, ANY])
        self.assertEqual(found["watched"], {"judged": 2, "unjudged": 0, "strayed": 1, "torn": 0, "calls": 95, "ticks": 8, "conversations": 9})
        self.assertEqual([shop["name"] for shop in found["shops"]], ["shops"])


class NoteTest(unittest.TestCase):
    def test_a_paragraph(self):
        said = note(surveyed(("Miller", "2026-03", 30000, 9000, None), ("Pratt", "2026-05", 11197, 400, None),
                             *[("Pratt", "2026-04", 1, 1, "buffer lost")] * 3))
        self.assertTrue(said.startswith(
            "We held five logs of two shops from March to May 2026 to the proved monitor, answer by answer: 41,200 conversations in 9,403 ticks of "
            "the clock. In three logs the station strayed: about 7 in 100,000 conversations, and between 1 and 21, with 95 in 100 certainty. In "
            "three a buffer was lost (about 7 in 100,000, and between 1 and 21). Not once was there a wait for an answer already withdrawn, a "
            "stranger woken or any other wrong answer: of each there are at most 9 in 100,000. What can't be said: how stations fare whose logs "
            "nobody sent;"), said)

    def test_nothing_strayed_and_nothing_watched(self):
        self.assertIn("No station strayed: of faults of any kind there are at most 9 in 100,000 conversations with 95 in 100 certainty.",
                      note(surveyed(("Miller", None, 41200, 10, None))))
        self.assertEqual(note(surveyed(("Miller", None, 0, 10, None))),
                         "In one log that could be judged no conversation was begun, so there is nothing to say of faults.")


class PictureTest(FolderTest):
    def drawn(self, found, *rows):
        """The picture's texts, and the places of its dots."""
        root = ElementTree.fromstring(chart_of(found, *rows))
        self.assertEqual(root.tag, "{http://www.w3.org/2000/svg}svg")
        return ([text.text for text in root.iter("{http://www.w3.org/2000/svg}text")],
                [float(dot.get("cx")) for dot in root.iter("{http://www.w3.org/2000/svg}circle")])

    def test_rows(self):
        found = surveyed(("Miller", "2026-03", 1000, 500, "buffer lost"), ("Pratt", "2026-04", 1000, 500, None), ("Ouse", None, 4, 2, None))
        texts, dots = self.drawn(found)
        self.assertEqual(texts[0], "Faults in 10,000 conversations")
        self.assertTrue({"Miller", "Ouse", "Pratt", "together", "1 in 1,000", "0 in 1,000", "0 in 4", "1 in 2,004"} <= set(texts), texts)
        self.assertEqual((len(dots), dots[1], dots[1] < dots[3] < dots[0]), (4, dots[2], True))
        texts, _ = self.drawn(found, "months", "ticks")
        self.assertTrue({"March 2026", "April 2026", "no month named", "1 in 500"} <= set(texts), texts)
        texts, dots = self.drawn(found, "kinds")
        self.assertEqual(len(dots), len(KINDS) + 1)

    def test_a_line_is_where_its_interval_is(self):
        found = surveyed(("Miller", None, 1000, 1, "buffer lost"), ("Pratt", None, 2000, 1, None))
        svg = chart_of(found)
        lines = [(float(low), float(high)) for low, high in re.findall(r'class="line" d="M([\d.]+) [\d.]+H([\d.]+)', svg)]
        marks = {text.text: float(text.get("x")) for text in ElementTree.fromstring(svg).iter("{http://www.w3.org/2000/svg}text")
                 if text.text.isdigit()}
        zero, one = marks["0"], (marks["20"] - marks["0"]) / 2  # the axis is in 10,000
        for (low, high), ends in zip(lines, ((0.0253, 5.5716), (0, 3.6889 / 2), (0.0253 / 3, 5.5716 / 3))):
            self.assertAlmostEqual((low - zero) / one, ends[0], 2)
            self.assertAlmostEqual((high - zero) / one, ends[1], 2)

    def test_the_file(self):
        out = self.place("out.svg")
        self.assertEqual(survey("--picture", out, "--rates", SHOPS)[0], 1)
        with open(out, encoding="utf-8") as file:
            self.assertEqual(file.read(), survey("--picture", "-", SHOPS)[1])
        log = self.put("one.log", b"")
        code, said, trouble = survey("--picture", log, SHOPS)
        self.assertEqual((code, said), (2, ""))
        self.assertIn("is there and is no SVG picture, so it is left alone", trouble)


class SpeedTest(FolderTest):
    def test_every_core_has_a_program(self):
        with Judges(Progress([], False)) as judges:
            self.assertEqual(len({program.run.pid for program in judges.programs}), len(os.sched_getaffinity(0)))
        self.assertTrue(all(program.run.poll() is not None for program in judges.programs))

    def test_control_c(self):
        make(self.folder, 1, 1, 200000)
        for number in range(2, 300):
            os.link(self.place("0001.log"), self.place(f"{number:04}.log"))
        run = subprocess.Popen([os.path.join(HOME, "survey"), "--rates", "--progress", self.folder], stdout=subprocess.PIPE, stderr=subprocess.PIPE,
                               start_new_session=True, preexec_fn=lambda: signal.signal(signal.SIGINT, signal.SIG_DFL))
        begun = run.stderr.read(9)
        os.killpg(run.pid, signal.SIGINT)
        said, words = run.communicate(timeout=LONGEST)
        self.assertEqual((run.returncode, begun, said, words.splitlines()[-1]), (2, b"\rsurvey: ", b"", b"survey: interrupted before the end."))
        with self.assertRaises(ProcessLookupError):
            os.killpg(run.pid, 0)

    def run_timed(self, folder):
        """Surveys a folder; gives the seconds and the most memory in kilobytes."""
        began = time.monotonic()
        words = ["/bin/sh", "-c", 'exec "$0" --json "$1" --progress >"$2" 2>"$3"', os.path.join(HOME, "survey"), folder, self.place("said"), self.place("word")]
        pid = subprocess.Popen(words)
        _, status, usage = os.wait4(pid.pid, 0)
        pid.returncode = os.waitstatus_to_exitcode(status)
        self.assertEqual(pid.returncode, 1)
        return time.monotonic() - began, usage.ru_maxrss

    def test_a_thousand_logs_of_ten_thousand_lines(self):
        truths = make(self.place("many"), 1, MANY, LINES // 2, faults=20000)
        some = sorted(truths)[:MANY // 10]
        os.mkdir(self.place("few"))
        for name in some:
            os.link(self.place("many", name), self.place("few", name))
        _, less = self.run_timed(self.place("few"))
        seconds, more = self.run_timed(self.place("many"))
        with open(self.place("said"), encoding="utf-8") as file:
            logs = json.load(file)["logs"]
        self.assertEqual([log["strayed"] for log in logs], [truths[name].strayed for name in sorted(truths)])
        self.assertGreater(sum(log["lines"] for log in logs), MANY * LINES)
        self.assertLess(seconds, MOST_SECONDS)
        self.assertLess(more - less, MOST_GROWTH)
        with open(self.place("word"), encoding="utf-8", newline="") as file:
            self.assertRegex(file.read(), r"\rsurvey: [\d,]+ of 1,000 logs, about \d+ s left")
        if os.environ.get("SURVEY_SPEED"):
            print(f"{MANY} logs of {LINES} lines: {seconds:.1f} s, {more // 1024} MB; {MANY // 10} logs: {less // 1024} MB")


if __name__ == "__main__":
    unittest.main()
