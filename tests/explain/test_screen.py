"""What ./explain --screen shows: in a terminal and elsewhere, in 80 columns, and what it refuses."""

import os
import pty
import struct
import subprocess
import termios
import unittest
from fcntl import ioctl

from desk.explain.screen import HOME, cut_to, screen_lines
from desk.explain.telling import Telling
from desk.log import lines
from tests.explain.room import EXAMPLES, LONGEST, VECTORS, Room, read
from tests.explain.test_explain import output_of
from tests.explain.test_program import entry, layout, line

HEADING = "name   state    waits for                                      queue  sent"
WORKED = ["Line 9 of 9", "List the buffers of A: 1 open buffer.", HEADING,
          "A      current                                                     1     1",
          "B      running                                                     0     0"]


def screens(log):
    """The screens of a log, each with its head and rows in one list."""
    telling = Telling()
    for taken in lines.follow(log, output_of(log)):
        telling.tell(taken)
        if telling.station:
            head, rows = screen_lines(f"Line {taken.place}", telling.said, telling.station)
            yield head + rows


def rows_after(*calls):
    """The rows after some calls, with single blanks, of READ, SPELL and two more."""
    *_, last = screens((layout() + "".join(calls)).encode())
    return [" ".join(row.split()) for row in last[last.index(HEADING) + 1:]]


class RowsTest(unittest.TestCase):
    def test_80_columns_in_every_log(self):
        shown = 0
        names = "".join(entry(1, 4, f"WWW{p:02}") for p in range(1, 33))
        waits = line(6, 1) + line(6, 32) + line(1, 32, 0, *[0xFFFF] * 4) + line(2, 1)
        for log in [(names + waits).encode(), *map(read, VECTORS + EXAMPLES)]:
            for screen in screens(log):
                self.assertLessEqual(max(map(len, screen)), 80)
                shown += 1
        self.assertGreater(shown, 1000)

    def test_states_and_waits(self):
        start = [line(6, 1), line(6, 2), line(6, 3)]
        self.assertEqual(rows_after(*start), ["READ current 0 0", "SPELL running 0 0", "SCRN running 0 0", "PRINT stopped 0 0"])
        waits = [line(1, 2), line(2, 1), line(5, 7, 3), line(3, 9), line(9)]
        self.assertEqual(rows_after(*start, *waits), [
            "READ waits the answer to buffer 1, queued at SPELL 0 1", "SPELL waits device 7, 2 ticks at most 1 0",
            "SCRN waits an event, 8 ticks at most 0 0", "PRINT stopped 0 0"])
        held = [line(1, 2), line(2, 1), line(3)]
        self.assertEqual(rows_after(*start, *held)[:2], ["READ waits the answer to buffer 1, held by SPELL 0 1", "SPELL current 0 0"])

    def test_answers_queue_and_orphans_are_sent(self):
        start = [line(6, 1), line(6, 2), line(1, 2), line(1, 2), line(3), line(3)]
        self.assertEqual(rows_after(*start)[:2], ["READ waits an event 0 2", "SPELL current 1 0"])
        self.assertEqual(rows_after(*start, line(4, 1))[:2], ["READ current 1 2", "SPELL running 1 0"])
        self.assertEqual(rows_after(*start, line(8, 1))[:2], ["READ stopped 0 1", "SPELL current 0 0"])

    def test_a_screen_is_cut_to_a_small_terminal(self):
        self.assertEqual(cut_to(["one", "two", "three", "four"], 40, 3), ["one", "two", "and 2 more lines"])
        self.assertEqual(cut_to(["one", "three"], 3, 2), ["one", "thr"])


class CommandTest(unittest.TestCase):
    def setUp(self):
        self.room = Room().__enter__()
        self.addCleanup(self.room.__exit__)
        self.room.build()

    def typed(self, words, log="examples/worked.log"):
        run = self.room.typed(f"./explain {words} {log}")
        return run.returncode, run.stdout.decode(), run.stderr.decode()

    def in_terminal(self, words, columns=80, rows=24):
        """What a terminal of some size is told, and the exit code."""
        here, there = pty.openpty()
        ioctl(there, termios.TIOCSWINSZ, struct.pack("HHHH", rows, columns, 0, 0))
        process = subprocess.Popen(["sh", "-c", f"./explain {words}"], cwd=self.room.folder, stdin=subprocess.DEVNULL, stdout=there,
                                   env=dict(os.environ, TERM="xterm", COLUMNS="", LINES=""))
        os.close(there)
        told = b""
        try:
            while piece := os.read(here, 65536):
                told += piece
        except OSError:  # the other end is closed
            pass
        os.close(here)
        return process.wait(timeout=LONGEST), told.decode().replace("\r\n", "\n")

    def test_plain_print(self):
        code, told, said = self.typed("--screen")
        self.assertEqual((code, said), (0, ""))
        shown = told.split("\n\n")
        self.assertEqual(shown[-1], "")
        self.assertEqual((len(shown) - 1, shown[-2].split("\n")), (7, WORKED))
        self.assertNotIn("\x1b", told)

    def test_a_terminal_is_drawn_on(self):
        code, told = self.in_terminal("--screen --speed 1000 examples/worked.log")
        drawn = told.split(HOME)[1:]
        self.assertEqual((code, len(drawn)), (0, 7))
        last = drawn[-1].replace("\x1b[K", "").replace("\x1b[J", "").rstrip("\n").split("\n")
        self.assertEqual([row for row in last if row], WORKED)
        self.assertEqual(last.index(HEADING), 4)

    def test_a_small_terminal(self):
        code, told = self.in_terminal("--screen --speed 1000 examples/worked.log", columns=20, rows=7)
        last = told.split(HOME)[-1].replace("\x1b[K", "").replace("\x1b[J", "").rstrip("\n").split("\n")
        self.assertEqual((code, len(last), max(map(len, last)), last[-1]), (0, 6, 20, "and 2 more lines"))

    def test_no_layout_and_no_calls(self):
        code, told, _ = self.typed("--screen", "examples/refused-layout.log")
        self.assertEqual((code, "refused with 11" in told), (0, True))
        run = self.room.run("explain", "--screen", log=layout().encode())
        self.assertEqual(run.stdout.decode().split("\n")[1:5], ["Laid out; no call came.", HEADING, *[
            f"{name:<6} stopped{' ' * 53}0     0" for name in ("READ", "SPELL")]])

    def test_answers_that_break_off(self):
        self.room.build("cat >/dev/null; echo 000000000000010000000000000000")
        code, told, _ = self.typed("--screen")
        self.assertEqual((code, told.split("\n")[-2]), (1, "Here the monitor's answers break off."))

    def keyed(self, words, script):
        """The screens that a terminal is told where keys are typed: each key once the text before it has come; gives the exit code too."""
        here, there = pty.openpty()
        ioctl(there, termios.TIOCSWINSZ, struct.pack("HHHH", 24, 100, 0, 0))
        before = termios.tcgetattr(there)
        process = subprocess.Popen(["sh", "-c", f"./explain {words}"], cwd=self.room.folder, stdin=there, stdout=there,
                                   env=dict(os.environ, TERM="xterm", COLUMNS="", LINES=""))
        told = b""
        for text, key in script:
            begun = len(told)
            while text not in told[begun:]:
                told += os.read(here, 65536)
            os.write(here, key)
        code = process.wait(timeout=LONGEST)
        self.assertEqual(termios.tcgetattr(there), before)
        os.close(there)
        os.close(here)
        return code, told.decode()

    def test_keys(self):
        code, told = self.keyed("--screen --speed 1 examples/worked.log", [
            (b"Line 3 of 9   space pauses, n steps, b goes back, q ends", b" "), (b"Line 3 of 9, paused", b"n"), (b"Line 4 of 9, paused", b"\x1b[C"),
            (b"Line 5 of 9, paused", b"b"), (b"Line 4 of 9, paused, 1 back", b"\x1b[D"), (b"Line 3 of 9, paused, 2 back", b"b"),
            (b"Line 3 of 9, paused, 2 back", b"n"), (b"Line 4 of 9, paused, 1 back", b" "), (b"Line 6 of 9 ", b"q")])
        self.assertEqual(code, 0)
        self.assertNotIn("Line 9 of 9", told)

    def test_the_last_screen_stays_where_it_was_paused(self):
        steps = [(f"Line {line} of 25, paused".encode(), b"n") for line in range(4, 25)]
        code, _ = self.keyed("--screen --speed 1 examples/ring-cleaned.log", [
            (b"Line 4 of 25", b" "), *steps, (b"Line 25 of 25, paused", b"b"), (b"Line 24 of 25, paused, 1 back", b"q")])
        self.assertEqual(code, 0)

    def test_what_is_refused(self):
        for words, sentence in (("--screen --speed 0", "a speed is a number from 1 to 1000"), ("--speed 3", "--speed goes with --screen"),
                                ("--screen --picture run.svg", "not allowed with argument --screen")):
            code, told, said = self.typed(words)
            self.assertEqual((code, told), (2, ""), words)
            self.assertIn(sentence, said)
        code, told, said = self.typed("--screen", "examples/worked.log >/dev/full")
        self.assertEqual((code, said), (2, "explain: standard output can't be written: No space left on device.\n"))
