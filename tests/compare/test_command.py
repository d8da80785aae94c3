"""./compare on two logs: what it says, its exit codes, and what it says of trouble."""

import os
import random
import shutil
import threading
import unittest

from desk.log.alone import Names, told_alone
from tests.compare.archive import cut, numbers_of
from tests.compare.room import CompareRoom, joined, woven
from tests.compare.test_archive import any_log, changed, ended
from tests.explain.room import EXAMPLES, HOME, VECTORS, read

A, B = b"00000500014100000000000000", b"00000300004200000000000000"
SEND, TICK = b"01000200001111222233334444", b"09000000000000000000000000"


class ComparedTest(unittest.TestCase):
    def setUp(self):
        self.room = CompareRoom().__enter__()
        self.addCleanup(self.room.__exit__)
        self.room.put_program()

    def said(self, *logs, options=(), code=1):
        """What ./compare writes, in one piece with single blanks."""
        run = self.room.compare(*logs, options=options)
        self.assertEqual((run.returncode, run.stderr), (code, b""))
        return " ".join(run.stdout.decode().split())

    def test_logs_that_agree(self):
        log = read(EXAMPLES[-1])
        for one, two in ((log, log), (log, log.rstrip(b"\n")), (b"", b""), (b"\n", b"\n"), (b"A", b"A\n")):
            self.assertEqual(self.said(one, two, code=0), "The logs agree.")
            self.assertEqual(self.said(one, two, options=["--numbers"], code=0), "")

    def test_both_lines_in_words(self):
        said = self.said(joined([A, B, SEND]), joined([A, B, SEND[:-1] + b"5"]))
        self.assertIn("Line 3 first 01000200001111222233334444 second 01000200001111222233334445 ^ "
                      "first Send 1111 2222 3333 4444 to B. second Send 1111 2222 3333 4445 to B. 1 line that both logs have differs.", said)

    def test_marks_stand_below_what_differs(self):
        rows = self.room.compare(joined([SEND]), joined([SEND[:-1] + b"5"])).stdout.decode().split("\n")
        place = rows.index("Line 1")
        self.assertEqual(rows[place + 3].index("^"), rows[place + 1].index(SEND.decode()) + len(SEND) - 1)

    def test_what_runs_on(self):
        said = self.said(joined([A, B]), joined([A, B, TICK, TICK]))
        self.assertIn("Line 3, which only the second log has second 09000000000000000000000000 Tick.", said)
        self.assertIn("The second log runs on behind line 2 with 2 lines (54 bytes, from its byte 54 on).", said)
        said = self.said(joined([A]) + b"X", b"")
        self.assertIn("The first log runs on behind line 0 with 2 lines (28 bytes, from its byte 0 on).", said)
        self.assertNotIn("both logs have", said)

    def test_how_many_are_shown(self):
        one, two = joined([TICK] * 30), joined([SEND] * 30)
        for options, shown in (((), 10), (("--most", "3"), 3), (("--most", "0"), 0), (("--all",), 30)):
            said = self.said(one, two, options=options)
            self.assertEqual(said.count("first Tick."), shown)
            self.assertIn("30 lines that both logs have differ.", said)
            self.assertEqual(f"Not shown: {30 - shown} lines" in said, shown < 30)

    def test_numbers_of_drawn_logs(self):
        draw = random.Random(3)
        for _ in range(40):
            lines = any_log(draw) * draw.choice([1, 1, 7, 60])
            one, two = ended(lines, draw), ended(changed(lines, draw), draw)
            numbers = numbers_of(cut(one), cut(two))
            run = self.room.compare(one, two, options=["--numbers"])
            self.assertEqual([int(line) for line in run.stdout.split()], numbers)
            self.assertEqual(run.returncode, 1 if numbers else 0)

    def test_every_vector_is_told_in_80_columns(self):
        for one, two in zip(VECTORS[::3], VECTORS[1::3]):
            logs = [joined(woven(read(path), read(path[:-3] + ".out"))) for path in (one, two)]
            text = self.room.compare(*logs, options=["--all"]).stdout.decode()
            self.assertLessEqual(max(len(line) for line in text.split("\n")), 80, text)

    def test_bytes_that_cannot_be_printed(self):
        said = self.said(b"\x00\xff\x1b[31m\n" + b"Z" * 300, b"\r\n" + b"Y" * 300)
        self.assertIn("Line 1 first ???[31m second ?", said)
        self.assertIn(f"{'Z' * 38} .. {'Z' * 18} (300 bytes)", said)
        self.assertIn("it ends in a carriage return", said)

    def test_long_lines_are_shown_by_their_two_ends(self):
        said = self.said(b"A" * 500 + b"1", b"A" * 500 + b"2")
        self.assertIn(f"first {'A' * 38} .. {'A' * 17}1 (501 bytes) second {'A' * 38} .. {'A' * 17}2 (501 bytes) "
                      "first No call: it is too long: 501 characters where 26 are due.", said)

    def test_a_pipe_is_read_whole(self):
        pipe = self.room.place("pipe")
        os.mkfifo(pipe)
        log = joined([SEND] * 50000)
        writer = threading.Thread(target=self.room.write, args=("pipe", log))
        writer.start()
        run = self.room.run("compare", "--numbers", self.room.write("1.log", log + b"X"), pipe)
        writer.join()
        self.assertEqual((run.returncode, run.stdout), (1, b"50001\n"))

    def test_long_logs(self):
        long, line = joined([SEND] * 1600000), b"0" * (17 << 20)
        run = self.room.compare(long, long[:-5] + b"X", options=["--progress"])
        self.assertIn(b"of 82 MB", run.stderr)
        self.assertIn(b"Line 1600000\n", run.stdout)
        self.assertEqual(self.room.compare(long, long).stderr, b"")
        said = self.said(line + b"\n" + line, line + b"\n" + line[:-1] + b"1")
        self.assertIn("Line 2 first", said)
        self.assertIn("1 line that both logs have differs.", said)

    def test_trouble_is_one_sentence(self):
        good, folder = self.room.write("good.log", b"A\n"), self.room.folder
        for words, sentence in (
                ([good, "nowhere.log"], b"there is no file 'nowhere.log'."), ([good, folder], b"is a folder, not a file."),
                ([good], b"two logs are wanted, and one log was named"), ([], b"two logs are wanted, and no log was named"),
                ([good] * 3, b"two logs are wanted, and 3 logs were named"), ([good, good, "--most", "x"], b"'x' is no number of lines"),
                (["--to-monitor", good, good], b"one log is wanted, and 2 logs were named"), ([good, good, "--least"], b"--help")):
            run = self.room.run("compare", *words)
            self.assertEqual((run.returncode, run.stdout, run.stderr.count(b"\n")), (2, b"", 1), run.stderr)
            self.assertIn(sentence, run.stderr)

    def test_help(self):
        run = self.room.run("compare", "--help")
        self.assertEqual((run.returncode, run.stderr), (0, b""))
        self.assertIn(b"exit codes: 0 the logs agree, 1 they differ, 2", run.stdout)


class FirstUseTest(unittest.TestCase):
    """The program isn't built yet."""

    def trouble(self, room, path=None):
        run = room.run("compare", room.write("1.log", b""), room.write("2.log", b""), path=path)
        self.assertEqual((run.returncode, run.stdout), (2, b""))
        return run.stderr

    def test_what_is_missing(self):
        with CompareRoom() as room:
            self.assertIn(b"the package 'python3'", self.trouble(room, room.path_without("python3")))
        with CompareRoom() as room:
            self.assertIn(b"there is no C compiler 'cc'", self.trouble(room, room.path_without("cc")))

    def test_a_build_that_fails(self):
        with CompareRoom() as room:
            said = self.trouble(room, room.put_kit("echo what the compiler says; false", "cc"))
            self.assertIn(b"what the compiler says\ncompare: the build did not succeed", said)

    def test_it_is_built_once(self):
        with CompareRoom() as room:
            path = room.put_kit(f'echo built >>"{room.place("said")}"; exec "{shutil.which("cc")}" "$@"', "cc")
            for code in (0, 0):
                run = room.run("compare", room.write("1.log", b""), room.write("2.log", b""), path=path)
                self.assertEqual((run.returncode, run.stdout), (code, b"The logs agree.\n"))
            self.assertEqual(read(room.place("said")), b"built\n")
            os.utime(room.place("source", "compare.c"), (2 ** 32, 2 ** 32))
            room.run("compare", room.place("1.log"), room.place("2.log"), path=path)
            self.assertEqual(read(room.place("said")), b"built\nbuilt\n")


class AloneTest(unittest.TestCase):
    def test_each_kind_of_line(self):
        names = Names([A, B, SEND])
        for line, words in (
                (A, "Lay out A, priority 5, 1 buffer"), (SEND, "Send 1111 2222 3333 4444 to B"), (b"06000300000000000000000000", "Start #3"),
                (b"> 000001000100021111222233334444", "Done: kind 1, buffer 1, 1111 2222 3333 4444; B runs"), (b"0" * 30, "Done; nobody runs"),
                (b"06" + b"0" * 28, "Refused with 6, the caller may neither wait for that buffer nor answer it"),
                (b"> 0B" + b"0" * 28, "Refused with 11 (0B in the replay), the layout is not a legal one"),
                (b"63" + b"0" * 28, "Refused with 99 (63 in the replay), a number that no refusal has"),
                (b"> 00010001000200030000", "Listed: buffer 1 of A, sent to B, answered"),
                (b"00010001000200020001", "Listed: buffer 1 of A, sent to B 1 tick ago, held"),
                (b"0001000100020004FFFF", "sent to B 65535 ticks or more ago, orphaned"),
                (b"00010001000200090000", "with a standing of 9, which there is not"), (b"> 0001000100020003", "a line of a listing 20"),
                (b"FF", "No call, says the answer"), (b"> F", "No answer: one has 30 digits"), (b"", "No call: the line is empty"),
                (b"09" + b"1" * 24, "No call: digits 3 to 6 have to be zeros in call 09")):
            with self.subTest(line=line):
                self.assertIn(words, told_alone(line, names).replace("\xa0", " "))


if __name__ == "__main__":
    unittest.main()
