"""./explain --table as a command: the forms a dump may have, what is wrong with one, and how it ends."""

import os
import shutil
import subprocess
import tempfile
import unittest

from desk.log.standard import CannotGoOn
from desk.table.dumps import MOST_BYTES, dumps_in
from tests.explain.room import HOME, LONGEST, read

DAMAGED = os.path.join(HOME, "examples", "damaged.table")
WORDS = dumps_in(read(DAMAGED), None, "it")[0].words
ROW = 8


def rows(words, front="", between=" ", width=ROW):
    """Words as text, a row each, with a place in front by a pattern."""
    return "".join(front.format(i) + between.join(f"{word:04X}" for word in words[i:i + width]) + "\n" for i in range(0, len(words), width))


def read_text(text):
    """The words of each dump of a text."""
    return [dump.words for dump in dumps_in(text.encode(), None, "it")]


class FormsTest(unittest.TestCase):
    """Forms that are read, and those that are refused with a sentence."""

    def test_text(self):
        for text in (rows(WORDS), rows(WORDS, width=16), rows(WORDS, between=""), rows(WORDS).lower(), rows(WORDS).replace("\n", "\r\n"),
                     "\ufeff" + rows(WORDS), rows(WORDS, between="\t"), rows(WORDS, width=1), "# a remark\n" + rows(WORDS).replace("\n", " # row\n"),
                     rows(WORDS).replace("\n", "  of a station\n")):
            self.assertEqual(read_text(text), [WORDS], text[:60])

    def test_places(self):
        for front in ("{:>5}  ", "{}: ", "{:04d}: ", "{:04d}  ", "{:x}: ", "0x{:x} ", "{:04X}: ", "{:08X}: "):
            self.assertEqual(read_text(rows(WORDS, front)), [WORDS], front)

    def test_rows_of_zeros_left_out(self):
        told = "".join(row for row in rows(WORDS, "{:>5}  ").splitlines(True) if set(row[7:].split()) != {"0000"})
        self.assertLess(told.count("\n"), len(WORDS) // ROW)
        self.assertEqual(read_text(told), [WORDS])

    def test_as_other_programs_dump(self):
        data = b"".join(word.to_bytes(2, "big") for word in WORDS)
        with tempfile.NamedTemporaryFile() as file:
            file.write(data)
            file.flush()
            for command in ("od -x --endian=big", "od -A x -x --endian=big", "od -v -A d -x --endian=big", "od -A d -x --endian=big", "od -A n -v -x "
                            "--endian=big", "xxd", "xxd -p"):
                if shutil.which(command.split()[0]) is not None:
                    told = subprocess.run([*command.split(), file.name], capture_output=True, text=True, check=True).stdout
                    self.assertEqual(read_text(told), [WORDS], command)

    def test_rows_that_repeat(self):
        ones, zeros = " 0001" * ROW, " 0000" * ROW
        for places in (("0000000", "0000020", "0000100"), ("0000000", "0000010", "0000040"), ("0000000", "0000016", "0000064")):
            told = f"{places[0]}{ones}\n{places[1]}{zeros}\n*\n{places[2]}{ones}\n"
            self.assertEqual(read_text(told), [[1] * ROW + [0] * 3 * ROW + [1] * ROW], places)

    def test_several(self):
        text = f"\n\n{rows(WORDS)}\n\n# another\n{rows(WORDS[:72])}"
        dumps = dumps_in(text.encode(), None, "it")
        self.assertEqual([(dump.line, len(dump.words)) for dump in dumps], [(3, len(WORDS)), (36, 72)])

    def test_bytes(self):
        for order in ("little", "big"):
            data = b"".join(word.to_bytes(2, order) for word in WORDS)
            self.assertEqual([dump.words for dump in dumps_in(data, order, "it")], [WORDS])

    def test_what_is_no_dump(self):
        for data, order, said in (
                (b"", None, "it has no words."), (b"\n\n# nothing\n", None, "it has no words."), (b"", "big", "it has no words."),
                (b"0001 0002\n0003 00G4\n", None, "it is no dump: line 2, column 6: '00G4' is no word; a word is four hexadecimal digits."),
                (b"0001 002\n", None, "it is no dump: line 1, column 6: '002' is no word; a word is four hexadecimal digits."),
                (b"hello\n", None, "it is no dump: line 1, column 1: 'hello' is no word; a word is four hexadecimal digits."),
                (b"0001 " + b"x" * 90, None, "it is no dump: line 1, column 6: 'xxxxxxxxxxxxxxxxx...' is no word; a word is four hexadecimal digits."),
                (b"0: 0001\n0002\n", None, "it is no dump: line 1 has a place in front of its words, and line 2 has none."),
                (b"0: 0001\n5: 0002\n3: 0003\n", None, "it is no dump: line 3 begins with the place 3, and 6 words stand before it."),
                (b"0: 0001 0002\n3: 0003\n", None, "it is no dump: line 2 begins with the place 3, and 2 words stand before it."),
                (b"0: 0001\n*\n", None, "it is no dump: line 2 says that rows repeat, and none behind it says how many."),
                (b"\0\1\0\2", None, "it is no dump: it is no text; --little or --big says in which order the bytes of its words stand."),
                (b"\0\1\0", "big", "it is no dump: it has 3 bytes, an odd number, and a word has two."),
                (b"0" * (MOST_BYTES + 1), None, "it has more than 16,000,000 bytes, and the largest table has 3,856.")):
            with self.assertRaises(CannotGoOn) as trouble:
                dumps_in(data, order, "it")
            self.assertEqual(str(trouble.exception), said)


class CommandTest(unittest.TestCase):
    """The command itself."""

    def explain(self, *words, typed=b""):
        run = subprocess.run([os.path.join(HOME, "explain"), *words], input=typed, capture_output=True, cwd=HOME, timeout=LONGEST, check=False)
        return run.returncode, run.stdout.decode(), run.stderr.decode()

    def test_a_damaged_table_and_a_mended_one(self):
        code, out, err = self.explain("--table", "examples/damaged.table")
        self.assertEqual((code, err), (1, ""))
        self.assertTrue(out.startswith("The table isn't sound: a buffer that is in no event queue has a neighbour.\n"))
        self.assertIn('           >  224 3334 "34" buffer 5\'s next in its event queue\n', out)
        code, out, err = self.explain("--table", typed=read(DAMAGED).replace(b"3334", b"0000"))
        self.assertEqual((code, err, out.split("\n")[0]), (0, "", "The table is sound."))

    def test_several_tables(self):
        text = rows(WORDS) + "\n" + rows(WORDS[:72])
        code, out, _ = self.explain("--table", "-", typed=text.encode())
        self.assertEqual(code, 1)
        self.assertTrue(out.startswith("Table 1 of 2, from line 1 on:\n"))
        self.assertIn("\n\nTable 2 of 2, from line 32 on:\nThe table isn't sound: there are fewer words than the header tells.\n", out)

    def test_bytes_of_either_order(self):
        for option, order in (("--little", "little"), ("--big", "big")):
            data = b"".join(word.to_bytes(2, order) for word in WORDS)
            self.assertIn("buffer 5's next in its event queue, is 3334", " ".join(self.explain("--table", option, typed=data)[1].split()))

    def test_words_that_dont_go_together(self):
        for words, said in (
                (("--table", "--page", "x.html"), "--page doesn't go with --table: a table is one moment, and has no run"),
                (("--table", "--picture", "x.svg"), "--picture doesn't go with --table: a table is one moment, and has no run"),
                (("--table", "--waits", "x.svg"), "--waits doesn't go with --table: a table is one moment, and has no run"),
                (("--table", "--screen"), "--screen doesn't go with --table: a table is one moment, and has no run"),
                (("--table", "--summary"), "--summary doesn't go with --table: a table is one moment, and has no run"),
                (("--table", "--edition", "1"), "--edition doesn't go with --table: a table is one moment, and has no run"),
                (("--little",), "--little goes with --table"), (("--big",), "--big goes with --table"),
                (("--table", "--big", "--little"), "--little: not allowed with argument --big")):
            self.assertEqual(self.explain(*words, DAMAGED), (2, "", f"explain: {said}; ./explain --help says how it is used.\n"))
        self.assertFalse(os.path.exists(os.path.join(HOME, "x.html")))

    def test_files_that_cant_be_read(self):
        self.assertEqual(self.explain("--table", "examples"), (2, "", "explain: 'examples' is a folder, not a file.\n"))
        self.assertEqual(self.explain("--table", "none.table"), (2, "", "explain: the file 'none.table' can't be read: No such file or directory.\n"))
        self.assertEqual(self.explain("--table"), (2, "", "explain: standard input has no words.\n"))
        self.assertEqual(self.explain("--table", "/dev/zero", "--big"),
                         (2, "", "explain: the file '/dev/zero' has more than 16,000,000 bytes, and the largest table has 3,856.\n"))
        self.assertEqual(self.explain("--table", "examples/ring.log")[0], 2)


if __name__ == "__main__":
    unittest.main()
