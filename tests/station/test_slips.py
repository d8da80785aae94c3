"""The station over a plain monitor with one slip at a time: by its pages, its log or its standstills each slip is noticed, and nothing is
found where there is none."""

import os
import re
import subprocess
import tempfile
import unittest

from tests.station.plain import built_in_words, drawn_text, printed

HOME = os.path.dirname(os.path.dirname(os.path.dirname(os.path.abspath(__file__))))
OUTFIT = ["--edition", "1", "--semaphores", "1,1"]
PAGES, CLEANS, LONGEST = 120, 15, 120
COMMON = ["desk/station/station.c", "desk/station/keeping.c", "desk/tape/input.c", "ports/pc/port.c", "source/why.c"]
FLAGS = ["-std=c11", "-O2", "-Iinclude", "-Iports", "-Iports/pc", "-Iexamples/proofreader", "-Ibench", "-DTEXT_LINES_MOST=20000", "-DTEXT_PAGES_MOST=500"]
PLAIN = ["-Dmonitor_trap=monitor_quick", "bench/plain_quick.c", "bench/plain_layout.c"]


def run(*words):
    return subprocess.run(words, capture_output=True, cwd=HOME, timeout=LONGEST, check=False)


class SlipsTest(unittest.TestCase):
    """Each slip, by name."""

    @classmethod
    def setUpClass(cls):
        """Compiles what is the same for all, once."""
        folder = tempfile.TemporaryDirectory()
        cls.addClassCleanup(folder.cleanup)
        cls.folder, cls.objects = folder.name, []
        proofreader = [f"examples/proofreader/{name}" for name in sorted(os.listdir(os.path.join(HOME, "examples/proofreader"))) if name.endswith(".c")]
        for source in [*COMMON, *proofreader]:
            cls.objects.append(os.path.join(folder.name, source.replace("/", "-") + ".o"))
            built = run("cc", *FLAGS, "-c", "-o", cls.objects[-1], source)
            assert built.returncode == 0, built.stderr

    def setUp(self):
        words = built_in_words(os.path.join(HOME, "examples/proofreader/words.c"))
        text = drawn_text(1, PAGES, words)
        self.text, self.log, self.right = self.path("text"), self.path("log"), printed(text, words)
        with open(self.text, "wb") as file:
            file.write(text)

    def path(self, name):
        return os.path.join(self.folder, name)

    def slipping(self, slip, station="ports/station.c"):
        """Runs the station over the plain monitor with the slip: whether its pages are right, what ./compare says of its log, its end."""
        built = run("cc", *FLAGS, f"-DSLIP={slip}", "-o", self.path("station"), *self.objects, station, *PLAIN)
        self.assertEqual(built.returncode, 0, built.stderr)
        ended = run(self.path("station"), "--cleans", str(CLEANS), "--log", self.log, self.text)
        judged = run("./compare", "--to-monitor", *OUTFIT, self.log)
        return ended.stdout == self.right, judged.returncode, judged.stdout.decode()

    def strays(self, slip, *words, **more):
        right, code, said = self.slipping(slip, **more)
        self.assertEqual(code, 1, said)
        for word in words:
            self.assertIn(word, re.sub(r"\s+", " ", said))
        return right

    def test_none(self):
        right, code, said = self.slipping("SLIP_NONE")
        self.assertEqual((right, code), (True, 0), said)

    def test_a_held_buffer_is_freed(self):
        self.assertFalse(self.strays("SLIP_HELD_FREED", "A buffer is lost"))

    def test_a_stranger_is_woken(self):
        self.assertTrue(self.strays("SLIP_STRANGER_WOKEN"), "whoever is woken asks again, so that the pages are right")
        self.assertFalse(self.strays("SLIP_STRANGER_WOKEN", station="bench/believing.c"))

    def test_whoever_waits_is_left_waiting(self):
        self.strays("SLIP_LEFT_WAITING")

    def test_an_answer_to_an_orphan_is_delivered(self):
        self.assertFalse(self.strays("SLIP_ORPHAN_DELIVERED"))
