"""./compare --to-monitor: each way in which a station can stray, and logs that don't."""

import os
import random
import subprocess
import unittest

from tests.compare.room import MARK, CompareRoom, joined, woven
from tests.explain.room import HOME, VECTORS, read

SHOPS = os.path.join(HOME, "examples", "shops")
WORKED = read(os.path.join(HOME, "examples", "worked.log"))
ZEROS = b"0" * 30
NONE = "By its own answers no buffer is lost, nobody waits for an answer already withdrawn, no stranger is woken."


def bent(answer, draw):
    """An answer with one digit changed."""
    place = draw.randrange(len(MARK), len(answer))
    other = draw.choice([digit for digit in b"0123456789ABCDEF" if digit != answer[place]])
    return answer[:place] + bytes([other]) + answer[place + 1:]


class MonitorTest(unittest.TestCase):
    def setUp(self):
        self.room = CompareRoom().__enter__()
        self.addCleanup(self.room.__exit__)
        self.room.put_program()

    def strays(self, rows, line, *pieces):
        """A log of these lines strays at this one, and these pieces are said of it."""
        code, said = self.room.hold(joined(rows))
        self.assertIn(f"The station strayed at line {line:,} of its log", said)
        for piece in pieces:
            self.assertIn(piece, said)
        self.assertEqual(code, 1)

    def test_no_fault(self):
        code, said = self.room.hold(joined(woven(WORKED)))
        self.assertEqual((code, said), (0, f"The station answered as the monitor does: 7 calls, 8 lines of answers. {NONE}"))
        for path in VECTORS[::5]:
            self.assertEqual(self.room.hold(joined(woven(read(path), read(path[:-3] + ".out"))))[0], 0, path)

    def test_another_answer(self):
        rows = woven(WORKED)
        self.strays([*rows[:7], MARK + b"000000000200010000000000000000", *rows[8:]], 8, "it answered otherwise",
                    "asked 01000200001111222233334444 By A: Send 1111 2222 3333 4444 to B.", "station > 00000000020001",
                    "Done: buffer 2; A runs.", "monitor > 00000000010001", "Done: buffer 1; A runs.",
                    "In the station's answer its buffer is 2 where 1 is due.",
                    "What should have come of it: Send 1111 2222 3333 4444 to B: it goes out in buffer 1. A runs on. Open: 1 A>B queued.",
                    "The call stands in line 7, and the 2 calls before it went right. No other strayed.")
        self.strays([*rows[:7], MARK + b"05" + b"0" * 28, *rows[8:]], 8, "Refused with 5, the sender has no free buffer.",
                    "its number is 5 where 0 is due. What should have come of it")
        self.strays([*rows[:11], MARK + b"000001000100021111222233334445", *rows[12:]], 12,
                    "its words are 1111 2222 3333 4445 where 1111 2222 3333 4444 are due")

    def test_a_listing(self):
        rows = woven(WORKED)
        self.strays([*rows[:16], MARK + b"00010001000200020000"], 17, "it answered otherwise", "Listed: buffer 1 of A, sent to B, held.",
                    "Listed: buffer 1 of A, sent to B, answered.")
        self.strays([*rows[:16], MARK + b"00010001000200030001"], 17, "it answered otherwise",
                    "Listed: buffer 1 of A, sent to B 1 tick ago, answered.", "Listed: buffer 1 of A, sent to B, answered.")
        self.strays(rows[:16], 17, "it left an answer out", "station Nothing more.")
        self.strays([*rows, rows[16]], 18, "it gave an answer too many", "monitor Nothing more.")

    def test_an_answer_left_out_or_too_many(self):
        rows = woven(WORKED)
        self.strays(rows[:5] + rows[6:], 6, "it left an answer out", "asked 06000200000000000000000000 Start B.", "station Nothing.")
        self.strays([*rows[:1], MARK + ZEROS, *rows[1:]], 2, "it gave an answer too many", "asked 00000500014100000000000000 Lay out A")
        self.strays([MARK + ZEROS, *rows], 1, "it gave an answer too many")

    def test_lines_that_are_no_calls(self):
        rows = woven(WORKED + b"0b000100000000000000000000\n")
        self.assertEqual(rows[-1], MARK + b"FF")
        self.assertEqual(self.room.hold(joined(rows))[0], 0)
        self.strays([*rows[:-1], MARK + ZEROS], len(rows), "No call: character 2 is a lower-case 'b'", "No call, says the answer.")
        self.strays([*rows, rows[-2] + b"\r", MARK + ZEROS], len(rows) + 2, "it ends in a carriage return")

    def test_a_refused_layout(self):
        log = read(os.path.join(HOME, "examples", "refused-layout.log"))
        rows = woven(log)
        self.assertEqual(self.room.hold(joined(rows))[0], 0)
        self.strays([*rows, rows[-2]], len(rows) + 1, "it went on after a layout that is refused", "The layout is refused with 11")
        self.strays([*rows[:-1], MARK + ZEROS], len(rows), "The layout is refused with 11", "Process 2, SPELL (line 2): its priority is 0")
        entries = woven(b"".join(log.splitlines(keepends=True)[:2]))
        self.strays([*entries[:-1], MARK + ZEROS], 3, "The layout is refused with 11")

    def test_no_answers_at_all(self):
        for log in (WORKED, b""):
            code, said = self.room.hold(log)
            self.assertEqual(code, 2)
            self.assertIn("carries no answers: each stands behind its call, marked with '> '.", said)
        self.assertEqual(self.room.hold(WORKED[:54])[0], 0)

    def test_any_digit_of_any_answer(self):
        draw = random.Random(4)
        # a line of a log that has the mark itself can't be told from an answer
        for path in [path for path in VECTORS if b"\n" + MARK not in read(path)][1::4]:
            rows = woven(read(path), read(path[:-3] + ".out"))
            place = draw.choice([place for place, row in enumerate(rows) if row.startswith(MARK)])
            self.strays([*rows[:place], bent(rows[place], draw), *rows[place + 1:]], place + 1)


class ProvedTest(unittest.TestCase):
    """The examples, with the proved replay itself."""

    def hold(self, name):
        run = subprocess.run([os.path.join(HOME, "compare"), "--to-monitor", os.path.join(SHOPS, name)], capture_output=True, check=False)
        return run.returncode, " ".join(run.stdout.decode().split())

    def test_the_two_shops(self):
        self.assertEqual(self.hold("one.log"), (0, "The station answered as the monitor does: 59 calls and 2 lines that are no "
                                                f"calls, 63 lines of answers. {NONE}"))
        code, said = self.hold("two.log")
        self.assertEqual(code, 1)
        self.assertIn("The station strayed at line 76 of its log", said)
        self.assertIn("its kind is 1 where 2 is due", said)


if __name__ == "__main__":
    unittest.main()
