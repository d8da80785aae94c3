"""What ./tape delivers, says and refuses, for good and bad words, tables and tapes."""

import os
import shutil
import subprocess
import tempfile
import unittest

HOME = os.path.dirname(os.path.dirname(os.path.dirname(os.path.abspath(__file__))))
SHOP = os.path.join(HOME, "examples", "shop.table")
ORDER = os.path.join(HOME, "examples", "order.rows")


def even(*characters):
    """Characters with even parity in the top bit."""
    return bytes(c | (bin(c).count("1") % 2) << 7 for c in characters)


class TapeTest(unittest.TestCase):
    """With a folder of its own for tables and tapes."""

    def setUp(self):
        above = tempfile.TemporaryDirectory()
        self.addCleanup(above.cleanup)
        self.folder = above.name

    def file(self, name, contents):
        """A file in the folder."""
        path = os.path.join(self.folder, name)
        with open(path, "wb") as file:
            file.write(contents if isinstance(contents, bytes) else contents.encode())
        return path

    def run_tape(self, *words, tape=b"", command=os.path.join(HOME, "tape"), path=None):
        """Runs ./tape from another folder."""
        environment = dict(os.environ, PATH=path) if path else None
        return subprocess.run([command, *map(str, words)], input=tape, capture_output=True, env=environment,
                              cwd=self.folder, check=False)

    def delivers(self, words, tape, output, *told):
        """The words deliver that output and tell those lines."""
        run = self.run_tape(*words, tape=tape)
        self.assertEqual((run.returncode, run.stdout), (0, output), run.stderr)
        self.assertEqual(run.stderr.decode().splitlines(), [f"tape: {line}" for line in told])

    def refuses(self, words, tape, told):
        """The operation is refused, and nothing is delivered."""
        run = self.run_tape(*words, tape=tape)
        self.assertEqual((run.returncode, run.stdout), (1, b""))
        self.assertEqual(run.stderr.decode(), f"tape: {told} Nothing is delivered.\n")

    def cannot(self, words, sentence, tape=b""):
        """The words, or what they name, are no good."""
        run = self.run_tape(*words, tape=tape)
        self.assertEqual((run.returncode, run.stdout), (2, b""))
        self.assertEqual(run.stderr.decode(), f"tape: {sentence}\n")


class DeliveryTest(TapeTest):
    """What is delivered, and what is told of it."""

    def test_the_example(self):
        told = ("36 bytes read, 29 delivered; a block ended, with 6 bytes of the tape left.",
                "the status is 0020: a character of class 136 or above came up.")
        self.delivers([9, "--table", SHOP, "--rows", ORDER], b"", b"Please send 2 reels of t?pe.\n", *told)
        with open(ORDER, "rb") as rows:
            self.delivers(["--rows", "--table", SHOP, 9], rows.read(), b"Please send 2 reels of t?pe.\n", *told)

    def test_modes(self):
        self.delivers([1], b"\x80\x03\xff", b"\x80\x03\xff", "3 bytes read, 3 delivered; the tape is used up.")
        self.delivers([5], b"\x80\x03\x01", b"\x00\x1a\x01", "3 bytes read, 3 delivered; the tape is used up.")
        self.delivers([9], b"\x80\x03\x81", b"\x1a\x03\x01", "3 bytes read, 3 delivered; the tape is used up.")
        self.delivers([1, "--table", SHOP], b"A", b"A", "1 byte read, 1 delivered; the tape is used up.")

    def test_a_file(self):
        self.delivers([1, self.file("a tape", b"\x00\xff")], b"", b"\x00\xff",
                      "2 bytes read, 2 delivered; the tape is used up.")
        self.delivers([1, "--", self.file("--rows", b"\x07")], b"", b"\x07",
                      "1 byte read, 1 delivered; the tape is used up.")

    def test_the_area(self):
        self.delivers([1, "--area", 2], b"abc", b"ab",
                      "2 bytes read, 2 delivered; the area is full, with 1 byte of the tape left.")
        self.delivers([9, "--area", 0], b"abc", b"",
                      "0 bytes read, 0 delivered; the area is full, with 3 bytes of the tape left.")
        self.delivers([9], b"", b"", "0 bytes read, 0 delivered; the tape is used up.")

    def test_the_base(self):
        table = self.file("table", "0 up 1\n1..2 normal 'x'\n")
        self.delivers([9, "--table", table], even(0, 1), b"xy", "2 bytes read, 2 delivered; the tape is used up.",
                      "the base moved from 0 to 1.")
        self.delivers([9, "--table", table, "--base", -1], even(2), b"x",
                      "1 byte read, 1 delivered; the tape is used up.")

    def test_tables(self):
        table = self.file("table", b"\t0x1..3 parity 0x30 # counts up\r\n# a remark\n\n2 skip\npage 128\n'a' 0 '#'#\n")
        self.delivers([9, "--table", table], even(1, 2, 3), b"02", "3 bytes read, 2 delivered; the tape is used up.",
                      "the status is 0020: a character of class 136 or above came up.")
        self.delivers([9, "--table", table, "--base", 128], even(97), b"#",
                      "1 byte read, 1 delivered; the tape is used up.")


class RefusalTest(TapeTest):
    """The numbers, in words."""

    def test_each(self):
        shifts = self.file("shifts", "0..20 down 1\n")
        self.refuses([4], b"x", "refused with 15: the mode is none of 1, 5 and 9.")
        self.refuses([9, "--table", shifts], even(20), "refused with 16: a character would be looked up a ninth time.")
        self.refuses([9, "--table", shifts], even(6), "refused with 17: base plus character is outside the table.")
        unlisted = self.file("unlisted", "1 normal 'x'\n2 131 0\n")
        for character in (0, 2):
            self.refuses([9, "--table", unlisted], even(character),
                         "refused with 18: an entry of the table has a class that isn't listed.")


class BadWordsTest(TapeTest):
    """One sentence and 2."""

    def test_words(self):
        self.cannot([], "which mode? 1, 5 or 9; ./tape --help says how it is used.")
        self.cannot(["odd"], "'odd' is no number; the mode is one.")
        self.cannot(["65536"], "the mode 65536 is outside 0 to 65535.")
        self.cannot(["-1"], "the mode -1 is outside 0 to 65535.")
        self.cannot(["--faster", 9], "there is no option '--faster'; ./tape --help says how it is used.")
        self.cannot([9, "--table"], "--table wants a file behind it.")
        self.cannot([9, "--base", "2147483648"], "the base 2147483648 is outside -2147483648 to 2147483647.")
        self.cannot([9, "--base", "x"], "'x' is no number; the base is one.")
        self.cannot([9, "--area", "-1"], "the area's size -1 is outside 0 to 1073741824.")
        self.cannot([9, "one", "two"], "one tape at a time, please: 'one' and 'two' were named.")

    def test_files(self):
        self.cannot([9, "nowhere"], "there is no file 'nowhere'.")
        self.cannot([9, self.folder], f"'{self.folder}' is a folder, not a file.")
        self.cannot([9, "--table", "nowhere"], "there is no file 'nowhere'.")

    @unittest.skipIf(os.geteuid() == 0, "the superuser may read every file")
    def test_a_file_that_may_not_be_read(self):
        closed = self.file("closed", b"")
        os.chmod(closed, 0)
        self.cannot([9, closed], f"the file '{closed}' may not be read.")

    def test_tables(self):
        for text, sentence in (
                ("", "the table 'table' names no place; without --table nothing is converted."),
                ("\n'x'\n", "line 2 of the table wants one of normal, skip, down, up, end, parity, or a class's number."),
                ("x normal 1", "line 1 of the table wants a place, a number or 'x'."),
                ("65536 skip", "line 1 of the table has the place 65536; the highest is 65535."),
                ("page 65535\n1 skip", "line 2 of the table has the place 1; the highest is 0."),
                ("5..4 skip", "line 1 of the table has a range that ends before it begins."),
                ("0 normal 256", "line 1 of the table has the value 256; the highest is 255."),
                ("0 256 0", "line 1 of the table has the class 256; the highest is 255."),
                ("0..1 normal 255", "line 1 of the table has a range whose values go beyond 255."),
                ("0 normal", "line 1 of the table wants a value, a number or 'x'."),
                ("0 skip 3", "line 1 of the table has more than it should: '3'."),
                ("0 skipped", "line 1 of the table wants one of normal, skip, down, up, end, parity, or a class's number."),
                (b"0 skip\0", "the table 'table' is no text.")):
            self.file("table", text)
            self.cannot([9, "--table", "table"], sentence)

    def test_rows(self):
        for text, sentence in (
                ("........\n...x....\n", "line 2 of the tape is no row of eight holes, 'o' or '.' each."),
                (".......", "line 1 of the tape is no row of eight holes, 'o' or '.' each."),
                (".........", "line 1 of the tape has more than eight holes.")):
            self.cannot([1, "--rows"], sentence, tape=text.encode())


class BuildingTest(TapeTest):
    """Where the program is not built."""

    def setUp(self):
        super().setUp()
        self.command = os.path.join(self.folder, "tape")
        shutil.copy(os.path.join(HOME, "tape"), self.command)
        shutil.copytree(os.path.join(HOME, "desk"), os.path.join(self.folder, "desk"))

    def test_help_needs_nothing(self):
        run = self.run_tape("--help", command=self.command)
        self.assertEqual((run.returncode, run.stderr), (0, b""))
        self.assertIn(b"usage: ./tape MODE", run.stdout)
        self.assertLessEqual(max(map(len, run.stdout.decode().splitlines())), 80)

    def test_no_compiler(self):
        commands = os.path.join(self.folder, "commands")
        os.mkdir(commands)
        for name in ("sh", "dirname", "readlink", "uname", "find", "head", "cat"):
            os.symlink(shutil.which(name), os.path.join(commands, name))
        run = self.run_tape(9, command=self.command, path=commands)
        self.assertEqual((run.returncode, run.stdout), (2, b""))
        self.assertEqual(run.stderr, b"tape: there is no C compiler 'cc', and the tape reader is not built yet; "
                                     b"on Debian it is in the package 'gcc'.\n")


if __name__ == "__main__":
    unittest.main()
