"""The summary, the filters and the words of ./explain: what a maintainer at the desk asks of a log."""

import os
import pty
import re
import struct
import subprocess
import termios
import unittest
from fcntl import ioctl

from desk.explain.faults import together
from desk.explain.filters import Filter
from desk.explain.telling import Telling
from desk.log import lines
from desk.log.words import wrapped
from tests.explain.room import EXAMPLES, LONGEST, VECTORS, Room, read
from tests.explain.test_explain import output_of
from tests.explain.test_program import layout, line

# READ, SPELL, SCRN, PRINT with 2, 3, 1 and no buffers: READ sends to SPELL, which holds it at the second tick.
STARTS = [line(6, 1), line(6, 2), line(6, 4)]
RUN = [*STARTS, line(1, 2, 0, 1), line(9), line(2, 1), line(3), line(9), line(3, 7)]


def telling_of(log, chosen=None):
    """A telling of a whole log, and its rows with single blanks."""
    data = log if isinstance(log, bytes) else (layout() + "".join(log)).encode()
    telling = Telling(chosen=chosen)
    followed = together(lines.follow(data, output_of(data)), chosen.borders() if chosen else ())
    rows = [telling.tell(taken) for taken in followed]
    return telling, [" ".join(row.split()) for row in rows if row]


def places(log, **asked):
    """The places of the rows that a filter tells."""
    return [int(row.split()[0]) for row in telling_of(log, Filter(**asked))[1]]


class SummaryTest(unittest.TestCase):
    def parts(self, log):
        """The parts of a summary by label, in one piece each with single blanks."""
        found, label = {}, None
        for row in telling_of(log)[0].close().split("\n")[1:]:
            label = row[2:10].strip() or label
            found[label] = f"{found.get(label, '')} {row[12:].strip()}".strip()
        return found

    def test_how_a_station_stands(self):
        self.assertEqual(self.parts(RUN), {
            "lines": "4 layout lines, 9 calls.", "running": "PRINT runs; stopped: SCRN.",
            "waiting": "READ for the answer to buffer 1, held by SPELL; since line 10, 1 tick ago. "
                       "SPELL for an event, 7 ticks at most; since line 13.",
            "open": "1 of 6 buffers: 1 READ>SPELL held, sent in line 8, 2 ticks ago.",
            "no free": "PRINT owns no buffers.", "stuck": "READ behind SPELL, which waits for an event.",
        })

    def test_what_was_refused_and_what_was_none(self):
        parts = self.parts([line(1, 2), *STARTS, line(1, 1), line(1, 1), "\n", "06\n", "0600\n", line(9, 1), line(8, 3), line(14), line(13, 1, 1)])
        self.assertEqual(parts["lines"], "4 layout lines, 9 calls, 4 that were no calls.")
        self.assertEqual(parts["refused"], "5 of 9 calls: 2, no process runs that could make the call: once, in line 5. "
                         "8, a process can't send to itself: 2 times, first in line 9. "
                         "13 (0D in the replay), there is no such call: once, in line 16. "
                         "19 (13 in the replay), there is no such semaphore: once, in line 17.")
        self.assertEqual(parts["no calls"], "the line is empty: once, in line 11. it is too short: 2 characters where 26 are due: "
                         "2 times, first in line 12. digits 3 to 6 have to be zeros in call 09, which doesn't use them: once, in line 14.")

    def test_no_free_buffer_and_the_oldest_first(self):
        sent = [*STARTS, line(1, 3), line(9), line(1, 3)]
        parts = self.parts(sent)
        self.assertEqual(parts["no free"], "READ owns 2 buffers, all in use. PRINT owns no buffers.")
        self.assertIn("the oldest first: 1 READ>SCRN queued, sent in line 8, 1 tick ago. 2 READ>SCRN queued, sent in line 10.", parts["open"])
        self.assertEqual(self.parts([*sent, line(8, 1)])["no free"], "PRINT owns no buffers.")

    def test_a_refused_layout(self):
        self.assertEqual(self.parts((layout() * 2 + line(6, 1)).encode()), {
            "lines": "8 layout lines, no calls. The layout was refused, and no line after it was read."})

    def test_every_log_is_counted_whole_in_80_columns(self):
        logs = [(path, read(path), read(path[:-3] + ".out")) for path in VECTORS]
        for path, log, output in logs + [(path, read(path), output_of(read(path))) for path in EXAMPLES]:
            telling, refused = Telling(), 0
            for taken in together(lines.follow(log, output)):
                telling.tell(taken)
                refused += bool(taken.call and taken.answer and taken.answer.number)
            counts = telling.counts
            with self.subTest(log=path):
                self.assertLessEqual(max(map(len, telling.close().split("\n"))), 80)
                self.assertEqual(sum(tally.count for tally in counts.refusals.values()), refused)
                faults = sum(tally.count for tally in counts.faults.values())
                if not counts.layout_refused:
                    self.assertEqual(counts.layout + counts.calls + faults, len(lines.cut(log)))


class FiltersTest(unittest.TestCase):
    def test_lines_of_a_process(self):
        self.assertEqual(places(RUN, names=["READ"]), [1, 5, 8, 10, 11])
        self.assertEqual(places(RUN, names=["PRINT"]), [4, 7, 13])
        self.assertEqual(places(RUN, names=["SCRN"]), [3])
        self.assertEqual(places(RUN, names=["SCRN", "PRINT"]), [3, 4, 7, 13])

    def test_lines_of_a_buffer(self):
        self.assertEqual(places(RUN, buffers=[1]), [1, 8, 10, 11])
        self.assertEqual(places([*RUN, line(11, 1), line(11, 3), line(8, 2)], buffers=[1]), [1, 8, 10, 11, 14, 16])
        self.assertEqual(places(RUN, buffers=[5]), [2])

    def test_refused_calls_and_places(self):
        log = [line(1, 2), *STARTS, "\n", line(1, 1), line(14), line(2, 9)]
        self.assertEqual(places(log, refused=True), [5, 10, 11, 12])
        self.assertEqual(places(log, refused=True, places=(6, 11)), [10, 11])
        self.assertEqual(places(log, places=(9, None)), [9, 10, 11, 12])
        self.assertEqual(places(log, places=(4, 4)), [4])
        self.assertEqual(places(log, refused=True, names=["READ"]), [10, 12])
        self.assertEqual(places([*STARTS, line(12, 1), line(14), line(13, 1)], refused=True, names=["READ"]), [8, 10])

    def test_a_filter_tells_the_same_rows_and_follows_all(self):
        whole, rows = telling_of(RUN)
        chosen, told = telling_of(RUN, Filter(places=(12, 13)))
        self.assertEqual(told, rows[-2:])
        self.assertEqual(chosen.close(), whole.close())

    def test_repeated_faults_are_cut_at_the_borders(self):
        log = [*STARTS, *["\n"] * 6]
        self.assertEqual(telling_of(log, Filter(places=(9, 11)))[1],
                         ["9 READ No call (FF): the line is empty. The 2 lines behind it, up to line 11, have a fault of this kind too."])


class WordsTest(unittest.TestCase):
    def said(self, *calls):
        return telling_of(calls)[1][-1]

    def test_a_tick_says_which_wait_ran_out(self):
        waits = [*STARTS, line(5, 7, 1), line(3, 1)]
        self.assertIn("Tick: READ's wait for device 7 and SPELL's wait for an event both ran out, READ and SPELL wake. READ runs now.",
                      self.said(*waits, line(9)))
        self.assertIn("Tick: nobody wakes.", self.said(*STARTS, line(3, 2), line(9)))
        self.assertIn("Tick: READ's wait for an event ran out, READ wakes.", self.said(*STARTS, line(3, 2), line(9), line(9)))

    def test_8000_says_who_was_cleaned(self):
        sent = [*STARTS, line(1, 2, 0, 1)]
        cleaned = "the answer 8000 0000 0000 0000, because SPELL was cleaned; buffer 1 is free again"
        self.assertIn(cleaned, self.said(*sent, line(8, 2), line(2, 1)))
        self.assertIn(cleaned, self.said(*sent, line(8, 2), line(3)))
        answered = [*sent, line(2, 1), line(3), line(4, 1, 0, 0x8000)]
        self.assertIn("the answer 8000 0000 0000 0000; buffer 1 is free again", self.said(*answered, line(2, 1)))
        again = [*sent, line(8, 2), line(2, 1), line(6, 2), line(1, 2, 0, 1), line(2, 1), line(3), line(4, 1, 0, 0x8000)]
        self.assertIn("the answer 8000 0000 0000 0000; buffer 1 is free again", self.said(*again, line(2, 1)))

    def test_a_stopped_process_is_not_stopped_again(self):
        sent = [*STARTS, line(1, 3, 0, 1)]
        self.assertIn("Clean SCRN: SCRN was stopped already; buffer 1 answered with 8000 hexadecimal.", self.said(*sent, line(8, 3)))
        self.assertIn("Clean SPELL: SPELL is stopped.", self.said(*sent, line(8, 2)))

    def test_repeated_faults_and_their_cure(self):
        log = "".join(part[:-1] + "\r\n" for part in [layout(), *STARTS]).replace("\n0", "\r\n0").replace("\r\r", "\r")
        _, rows = telling_of(log.encode())
        self.assertEqual(rows[0], "1 No call (FF): it ends in a carriage return (0D hex); a line ends in 0A alone. The 6 lines behind "
                         "it, up to line 7, have a fault of this kind too. The lines end in CR LF, as DOS and Windows write them; "
                         "tr -d '\\r' <LOG | ./explain - reads the log without.")
        self.assertEqual(len(rows), 2)
        _, rows = telling_of([*STARTS, "\n", "06\n", "0600\n", line(9), "\n"])
        self.assertEqual([int(row.split()[0]) for row in rows[-4:]], [8, 9, 11, 12])
        self.assertTrue(rows[-3].endswith("2 characters where 26 are due. Line 10 has a fault of this kind too."))

    def test_wrapping(self):
        self.assertEqual(wrapped("one two three", "> ", "  ", 9), "> one two\n  three")
        self.assertEqual(wrapped("one two\xa0three", "> ", "  ", 12), "> one\n  two three")
        self.assertEqual(wrapped("abcdefghij", "> ", "  ", 6), "> abcd\n  efgh\n  ij")


class CommandTest(unittest.TestCase):
    def setUp(self):
        self.room = Room().__enter__()
        self.addCleanup(self.room.__exit__)
        self.room.build()

    def test_options(self):
        station = self.room.place("examples", "station.log")
        whole = self.room.run("explain", station).stdout.decode()
        rows, summary = whole.split("\n\n")
        self.assertEqual(self.room.run("explain", "--summary", station).stdout.decode(), summary)
        told = self.room.run("explain", "--refused", "--process", "SPELL", "--lines", "30-60", station).stdout.decode()
        self.assertTrue(told.endswith("\n\n" + summary))
        self.assertTrue(set(told.split("\n\n")[0].split("\n")) < set(rows.split("\n")))
        self.assertEqual(re.findall(r"^ *(\d+)  ", told.split("\n\n", maxsplit=1)[0], re.MULTILINE), ["33", "34", "50"])
        none = self.room.run("explain", "--buffer", "6", "--refused", station).stdout.decode()
        self.assertEqual(none, "No line of the log is of the kind that is asked for.\n\n" + summary)

    def test_standard_input_by_its_sign(self):
        for log in EXAMPLES:
            runs = [self.room.run("explain", *words, log=data) for words, data in ((["-"], read(log)), ([log], b""))]
            self.assertEqual([(run.returncode, run.stderr) for run in runs], [(0, b"")] * 2)
            self.assertEqual(runs[0].stdout, runs[1].stdout)

    def test_what_is_refused(self):
        for words, sentence in (
                ("--lines 5-3", "the first comes before the last"), ("--lines 0-3", "lines count from 1"),
                ("--lines x", "--lines: lines are given as 20-40"), ("--buffer 0", "--buffer: a buffer is a number from 1 to 128"),
                ("--buffer", "--buffer wants something behind it"), ("--faster", "there is no option '--faster'"), ("a b", "one log at a time"),
                ("--summary --refused", "--refused doesn't go with --summary"), ("--screen --lines 1", "--lines doesn't go with --screen"),
                ("--process NOBODY examples/station.log", "the log has no process 'NOBODY'; it lays out READ, SPELL, SHOW, PRINT."),
                ("--buffer 99 examples/station.log", "the log has no buffer 99; it lays out buffers 1 to 6.")):
            run = self.room.typed(f"./explain {words}")
            self.assertEqual((run.returncode, run.stdout, run.stderr.count(b"\n")), (2, b"", 1), words)
            self.assertIn(sentence, run.stderr.decode())

    def test_help_in_80_columns(self):
        told = self.room.run("explain", "--help").stdout.decode()
        self.assertLessEqual(max(map(len, told.split("\n"))), 80)
        for option in ("--summary", "--refused", "--process NAME", "--buffer N", "--lines A-B"):
            self.assertIn(option, told)

    def in_terminal(self, columns):
        """The lines that a terminal of some width is told."""
        here, there = pty.openpty()
        ioctl(there, termios.TIOCSWINSZ, struct.pack("HHHH", 24, columns, 0, 0))
        process = subprocess.Popen(["sh", "-c", "./explain examples/station.log"], cwd=self.room.folder, stdin=subprocess.DEVNULL, stdout=there)
        os.close(there)
        told = b""
        try:
            while piece := os.read(here, 65536):
                told += piece
        except OSError:  # the other end is closed
            pass
        os.close(here)
        self.assertEqual(process.wait(timeout=LONGEST), 0)
        return told.decode().split("\r\n")

    def test_the_width_follows_the_terminal(self):
        for columns, least, most in ((60, 55, 60), (120, 110, 120), (0, 75, 80), (10, 35, 40)):
            widest = max(map(len, self.in_terminal(columns)))
            self.assertTrue(least <= widest <= most, (columns, widest))


class StreamingTest(unittest.TestCase):
    """Line and answer by turns, with a replay that has more to say than a pipe holds."""

    def test_answers_come_while_the_log_is_open(self):
        with Room() as room:
            room.build("while read -r call; do case $call in 00*) ;; *) echo 000000000000010000000000000000 ;; esac; done")
            process = room.start("explain", "--lines", "3", stdin=subprocess.PIPE)
            process.stdin.write((layout() + line(6, 1)).encode())
            process.stdin.flush()
            process.stdin.write(("".join([line(9)] * 9000)).encode())
            process.stdin.close()
            told = process.stdout.read()
            self.assertEqual((process.wait(LONGEST), process.stderr.read()), (0, b""))
            self.assertIn(b"4 layout lines, 9001 calls.", told)
            process.stdout.close()
            process.stderr.close()

    def test_memory_stays_flat(self):
        measure = "import resource, subprocess, sys; subprocess.run(sys.argv[1:], check=True); print(resource.getrusage(resource.RUSAGE_CHILDREN).ru_maxrss)"
        with Room() as room:
            room.build("exec 3<&0; cat <&3 >/dev/null & cat answers")
            used = []
            for calls in (2000, 60000):
                with open(room.place("a.log"), "w", encoding="ascii") as log, open(room.place("answers"), "w", encoding="ascii") as answers:
                    log.write(layout() + line(6, 1) + line(9) * calls)
                    answers.write("000000000000010000000000000000\n" * (calls + 1))
                run = subprocess.run(["python3", "-c", measure, room.place("explain"), "--summary", "a.log"], cwd=room.folder,
                                     capture_output=True, text=True, timeout=3 * LONGEST, check=True)
                used.append(int(run.stdout.split()[-1]))
            self.assertLess(used[1], used[0] + 3000)  # KB; the 60,000 lines and answers alone are 3,500


if __name__ == "__main__":
    unittest.main()
