"""./station: every page is right by a plain sequential proofreader, whatever is cleaned, and its log is the monitor's."""

import os
import subprocess
import tempfile
import unittest

from tests.station.plain import built_in_words, drawn_text, printed

HOME = os.path.dirname(os.path.dirname(os.path.dirname(os.path.abspath(__file__))))
OUTFIT = ["--edition", "1", "--semaphores", "1,1"]
PAGES, CLEANS = 2000, 40
LONGEST = 120  # seconds that a command may take


def run(*words, text=b""):
    """A command as it is typed, in the repository's folder."""
    return subprocess.run(words, input=text, capture_output=True, cwd=HOME, timeout=LONGEST, check=False)


def station(*words, text=b""):
    return run("./station", *words, text=text)


class PagesTest(unittest.TestCase):
    """What is printed, and the log behind it."""

    def setUp(self):
        folder = tempfile.TemporaryDirectory()
        self.addCleanup(folder.cleanup)
        self.log, self.words = os.path.join(folder.name, "station.log"), built_in_words()

    def right(self, text, *words, count=None):
        """The station prints what the plain proofreader does; gives what it tells."""
        ended = station(*words, "-", text=text)
        self.assertEqual((ended.returncode, ended.stdout), (0, printed(text, self.words, count)), ended.stderr)
        return ended.stderr.decode()

    def test_2000_pages_with_cleans(self):
        told = self.right(drawn_text(1, 500, self.words), "--pages", str(PAGES), "--cleans", str(CLEANS), "--log", self.log, count=PAGES)
        self.assertNotIn("no page came out", told)
        cleaned = int(told.split("cleaned ")[1].split()[0])
        self.assertGreater(cleaned, PAGES // 10)
        judged = run("./compare", "--to-monitor", *OUTFIT, self.log)
        self.assertEqual(judged.returncode, 0, judged.stdout)
        self.assertIn(b"no buffer is lost", judged.stdout)

    def test_many_seeds(self):
        text = drawn_text(2, 40, self.words)
        for seed in range(2, 42):
            self.right(text, "--seed", str(seed), "--cleans", str(seed % 7 + 2))

    def test_the_same_seed_is_the_same_run(self):
        logs = []
        for seed in ("5", "5", "6"):
            self.right(drawn_text(3, 10, self.words), "--seed", seed, "--cleans", "9", "--log", self.log)
            with open(self.log, "rb") as file:
                logs.append(file.read())
        self.assertEqual(logs[0], logs[1])
        self.assertNotEqual(logs[0], logs[2])

    def test_the_clock_of_this_pc(self):
        self.right(drawn_text(4, 100, self.words), "--clock", "--cleans", "5", "--log", self.log)
        self.assertEqual(run("./compare", "--to-monitor", *OUTFIT, self.log).returncode, 0)

    def test_odd_texts(self):
        for text in (b"teh", b"\n", b"\n\n\f\n", b"\f\fa\f\f\nb\n", b"a\tteh\n", "naïve — Grüße teh\n".encode(), b"CRLF teh\r\n\r\n",
                     b"x" * 500, b"teh " * 200, b"a-b-c-" * 60, "äöü".encode() * 90, b"it's 'teh' don''t '\n", b"a\x00b\x07c\n",
                     b"the end\n" * 130, b" " * 200 + b"teh\n", b"A" * 96 + b" teh\n", b"teh's TEH Teh\n", bytes(range(1, 256))):
            self.right(text)

    def test_a_list_of_ones_own(self):
        with tempfile.NamedTemporaryFile() as own:
            own.write(b"Teh\n\nkat\r\n")
            own.flush()
            ended = station("--words", own.name, "-", text=b"teh cat KAT\n")
            self.assertEqual(ended.stdout, printed(b"teh cat KAT\n", {b"teh", b"kat"}))

    def test_the_screen_shows_each_page(self):
        self.assertIn("page 1: 1 of 2 words are not in the list\n", self.right(b"the teh\n", "--screen"))

    def test_a_paper_tape(self):
        ended = run("sh", "-c", "./tape 9 --table examples/shop.table --rows examples/order.rows | ./station -")
        self.assertIn(b"\nPlease send 2 reels of t", ended.stdout)


class AskedTest(unittest.TestCase):
    """What can't be done is told in one sentence."""

    def refused(self, sentence, *words, text=b"the\n"):
        ended = station(*words, text=text)
        self.assertEqual((ended.returncode, ended.stdout, ended.stderr.decode()), (2, b"", f"station: {sentence}\n"))

    def test_refusals(self):
        how = "./station --help says how it is used."
        self.refused(f"which text? {how}")
        self.refused("there is no file 'nowhere'.", "nowhere")
        self.refused("'desk' is a folder, not a file.", "desk")
        self.refused("one text at a time, please: 'a' and 'b' were named.", "a", "b")
        self.refused(f"there is no option '--fast'; {how}", "--fast", "-")
        self.refused("--seed wants a number behind it.", "--seed")
        self.refused("the seed 0 is outside 1 to 4294967295.", "--seed", "0", "-")
        self.refused("'-1' is no number; the number of ticks is one.", "--cleans", "-1", "-")
        self.refused("the number of pages 40000 is outside 1 to 32767.", "--pages", "40000", "-")
        self.refused("the log '/nowhere/log' can't be written: No such file or directory.", "--log", "/nowhere/log", "-")
        self.refused("'-' can't be taken: a text has a line at least, at most 400000 lines and 32767 pages.", "-", text=b"")

    def test_a_full_disk_under_the_log(self):
        ended = station("--log", "/dev/full", "--pages", "500", "-", text=b"the\n")
        self.assertEqual((ended.returncode, ended.stderr), (2, b"station: the log '/dev/full' can't be written: No space left on device.\n"))
