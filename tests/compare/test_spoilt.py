"""Logs that are spoilt whole, files that are none, and layout lines that are no layout lines: named for what they are, with the cure."""

import os
import unittest

from desk.log import lines
from tests.compare.room import CompareRoom, joined, woven
from tests.explain.room import HOME, read

STATION = read(os.path.join(HOME, "examples", "station.log"))
WORKED = read(os.path.join(HOME, "examples", "worked.log"))
FIRST, REST = STATION.split(b"\n", 1)
SMALL = FIRST[:10] + b"a" + FIRST[11:]  # with a small letter


class NamedTest(unittest.TestCase):
    def setUp(self):
        self.room = CompareRoom().__enter__()
        self.addCleanup(self.room.__exit__)
        self.room.put_program()

    def explained(self, log, *options):
        return " ".join(self.room.run("explain", *options, log=log).stdout.decode().split())

    def test_a_spoilt_layout_line(self):
        for spoilt, fault in ((lines.BOM + FIRST, "it begins with a byte order mark"), (FIRST[:8] + b" " + FIRST[8:], "it has blanks in it"),
                              (FIRST[:-1], "it is too short: 25 characters"), (FIRST + b"\r", "it ends in a carriage return"),
                              (SMALL, "character 11 is a lower-case 'a'"), (FIRST[:-1] + b"1", "its last four digits are 0001")):
            with self.subTest(fault=fault):
                begins = f"eware: line 1 looks like a layout line and is none: {fault}"
                self.assertTrue(self.explained(spoilt + b"\n" + REST).startswith("B" + begins))
                self.assertTrue(self.explained(spoilt + b"\n" + REST, "--summary").startswith(f"Summary b{begins.replace(':', '', 1)}"))

    def test_the_second_layout_line(self):
        rows = STATION.split(b"\n")
        told = self.explained(b"\n".join([rows[0], rows[1].lower(), *rows[2:]]))
        self.assertTrue(told.startswith("Beware: line 2 looks like a layout line and is none"))
        self.assertIn("So the processes behind it, and their buffers, may have other numbers and names than those of the station.", told)

    def test_a_good_log_has_no_warning(self):
        for log in (STATION, STATION + FIRST + b"\n", STATION + lines.BOM + FIRST):
            self.assertNotIn("eware", self.explained(log))

    def test_a_station_with_a_spoilt_layout_line(self):
        code, said = self.room.hold(joined(woven(SMALL + b"\n" + REST)))
        self.assertEqual(code, 0)
        self.assertTrue(said.startswith("Beware: line 1 looks like a layout line and is none"))

    def test_what_a_file_is(self):
        output = b"".join(row[2:] + b"\n" for row in woven(WORKED) if row.startswith(b"> "))
        for log, name in ((WORKED.replace(b"\n", b"\r\n"), "he lines end in CR LF, as DOS and Windows write them; tr -d '\\r' <LOG | {} - reads the log "
                           "without"),
                          (lines.BOM + WORKED, "he log begins with a byte order mark, as some editors write it; tail -c +4 LOG | {} - reads it without"),
                          (WORKED.decode().encode("utf-16"), "he log is written in UTF-16, two bytes a letter; iconv -f UTF-16 -t ASCII LOG | {} - reads it"),
                          (bytes(range(256)) * 3, "he file looks like a binary one; a log is text"),
                          (output, "he lines look like what ./replay writes, answers and no calls; {} wants the log of the calls")):
            with self.subTest(name=name):
                for options in ((), ("--summary",)):
                    self.assertIn("T" + name.format("./explain"), self.explained(log, *options))
                code, said = self.room.hold(log)
                self.assertEqual(code, 2)
                self.assertIn("t" + name.format("./compare --to-monitor"), said)
                run = self.room.compare(WORKED, log)
                self.assertEqual(run.returncode, 1)
                self.assertIn("Of the second log: t" + name.format("./compare OTHER"), " ".join(run.stdout.decode().split()))

    def test_the_cures(self):
        for log, cure in ((WORKED.replace(b"\n", b"\r\n"), "tr -d '\\r' <LOG"), (lines.BOM + WORKED, "tail -c +4 LOG"),
                          (WORKED.decode().encode("utf-16"), "iconv -f UTF-16 -t ASCII LOG")):
            self.room.write("LOG", log)
            self.assertEqual(self.room.typed(f"{cure} | ./replay").stdout, self.room.run("replay", log=WORKED).stdout)
        rows = woven(WORKED)
        self.room.write("LOG", joined(row[2:] if row.startswith(b"> ") else row for row in rows))
        self.assertEqual(self.room.typed("sed -E 's/^([0-9A-F]{30}|[0-9A-F]{20}|FF)$/> &/' LOG").stdout, joined(rows))


class StandardInputTest(unittest.TestCase):
    def setUp(self):
        self.room = CompareRoom().__enter__()
        self.addCleanup(self.room.__exit__)
        self.room.put_program()

    def test_standard_input(self):
        one, two = (read(os.path.join(HOME, "examples", "shops", name)) for name in ("one.log", "two.log"))
        path = self.room.write("one.log", one)
        run = self.room.run("compare", path, "-", log=two)
        self.assertEqual((run.returncode, run.stderr), (1, b""))
        self.assertIn(b"second  standard input\n", run.stdout)
        self.assertIn(b"6 calls are answered otherwise.", run.stdout)
        self.assertEqual(self.room.run("compare", "--lines", "--numbers", "-", path, log=one).returncode, 0)
        self.assertEqual(self.room.run("compare", "--to-monitor", "-", log=one).returncode, 0)
        run = self.room.run("compare", "-", "-", log=one)
        self.assertEqual((run.returncode, run.stderr), (2, b"compare: standard input can be read only once, and '-' names it twice.\n"))


if __name__ == "__main__":
    unittest.main()
