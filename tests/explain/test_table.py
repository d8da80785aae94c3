"""./explain --table: what is told of a table's words, sound or not; every clause by its own words, and whatever words there are."""

import os
import random
import re
import unittest

from desk.log import lines
from desk.served.monitor import Monitor
from desk.table.clauses import BULLETS, TEXTS, broken
from desk.table.dumps import dumps_in
from desk.table.fault import word_told
from desk.table.telling import told
from desk.table.words import Table
from tests.explain.room import HOME, read

DAMAGED = os.path.join(HOME, "examples", "damaged.table")
OVER, WAS = 224, 0  # the word of it that was written over, and what it was

# For each clause words written over the station of examples/damaged.table, mended, and what is said of the word that is named.
CLAUSES = {
    2: ({0: 33}, "Word 0, the number of processes, is 0021; a table has 1 to 32 processes."),
    3: ({1: 129}, "Word 1, the number of buffers, is 0081; a table has at most 128 buffers."),
    4: ({5: 17}, "Word 5, the number of semaphores, is 0011; a table has at most 16 semaphores."),
    6: ({4: 2}, "Word 4, the edition, is 0002; editions are 0 and 1."),
    7: ({7: 1}, "Word 7, a header word without a use, is 0001; it is always 0."),
    8: ({237: 1}, "Word 237, semaphore 1's word without a use, is 0001; it is always 0."),
    9: ({113: 256}, "Word 113, process 3's priority, is 0100; priorities are 1 to 255."),
    10: ({116: 65}, "Word 116, the first word of process 3's name, is 0041; its name begins with a zero byte; a name is one to five bytes that aren't "
                    "zero, then zeros."),
    11: ({116: 0x5350, 117: 0x454C, 118: 0x4C00}, "Word 116, the first word of process 3's name, is 5350; process 2 has the same name, SPELL."),
    12: ({130: 3}, "Word 130, process 4's first own buffer, is 0003; process 4 owns 1 buffer, those before it 3, so that it should be 4."),
    13: ({147: 2}, "Word 1, the number of buffers, is 0005; the processes own 6 buffers together."),
    14: ({206: 4}, "Word 206, buffer 3's owner, is 0004; buffer 3 is one of process 2's own."),
    15: ({2: 3}, "Word 2, the first of the running queue, is 0003; process 3 waits for an event."),
    16: ({3: 9}, "Word 3, the last of the running queue, is 0009; there are 7 processes."),
    17: ({2: 2}, "Word 89, process 2's previous in the running queue, is 0001; process 2 is the first of the running queue, and before the first there is "
                 "none."),
    18: ({72: 9}, "Word 72, process 1's next in the running queue, is 0009; there are 7 processes."),
    19: ({89: 7}, "Word 89, process 2's previous in the running queue, is 0007; process 1's next is 2, so that it should be 1."),
    20: ({2: 0}, "Word 72, process 1's next in the running queue, is 0002; process 1 belongs in the running queue, which, followed from its first, is empty."),
    21: ({81: 4}, "Word 81, process 1's priority, is 0004; process 2 stands behind it with 5."),
    22: ({105: 2}, "Word 105, process 3's previous in the running queue, is 0002; process 3 waits for an event, and is in no queue."),
    23: ({74: 5}, "Word 74, the first of process 1's event queue, is 0005; buffer 5 is held."),
    24: ({107: 9}, "Word 107, the last of process 3's event queue, is 0009; there are 5 buffers."),
    25: ({74: 4}, "Word 215, buffer 4's previous in its event queue, is 0001; buffer 4 is the first of process 1's event queue, and before the first there "
                  "is none."),
    26: ({184: 2}, "Word 184, buffer 1's next in its event queue, is 0002; buffer 2 is answered, with process 2."),
    27: ({75: 1}, "Word 75, the last of process 1's event queue, is 0001; buffer 4 is the one behind which there is none."),
    28: ({90: 0}, "Word 194, buffer 2's next in its event queue, is 0000; buffer 2 belongs in process 2's event queue, which, followed from its first, is "
                  "empty."),
    29: ({224: 1}, "Word 224, buffer 5's next in its event queue, is 0001; buffer 5 is held, and in no event queue."),
    30: ({208: 5}, "Word 208, buffer 3's standing, is 0005; standings are 0 to 4."),
    31: ({211: 1}, "Word 211, the second word of buffer 3's message, is 0001; buffer 3 is free."),
    32: ({227: 5}, "Word 227, buffer 5's receiver, is 0005; process 5 is its owner."),
    33: ({235: 1}, "Word 235, the first in semaphore 1's queue, is 0001; process 1 runs."),
    34: ({236: 5}, "Word 236, the last in semaphore 1's queue, is 0005; process 5 waits for a device."),
    35: ({235: 7}, "Word 169, process 7's previous in the semaphore's queue, is 0006; process 7 is the first of semaphore 1's queue, and before the first "
                   "there is none."),
    36: ({152: 4}, "Word 152, process 6's next in the semaphore's queue, is 0004; process 4 waits for an answer."),
    37: ({236: 6}, "Word 236, the last in semaphore 1's queue, is 0006; process 7 is the one behind which there is none."),
    38: ({235: 0}, "Word 152, process 6's next in the semaphore's queue, is 0007; process 6 belongs in semaphore 1's queue, which, followed from its first, "
                   "is empty."),
    39: ({234: 65533}, "Word 234, semaphore 1's counter, is FFFD; that is -3, and 2 processes wait for semaphore 1."),
    40: ({108: 6}, "Word 108, process 3's state, is 0006; states are 0 to 5."),
    41: ({93: 4}, "Word 93, process 2's reason, is 0004; reasons are 0 to 3 and 5."),
    42: ({109: 1}, "Word 109, process 3's reason, is 0001; process 3 waits for an event, and only one that runs has a reason."),
    43: ({119: 1}, "Word 119, the semaphore that process 3 waits for, is 0001; process 3 waits for an event, and names no semaphore then."),
    44: ({74: 0, 75: 0, 106: 1, 107: 4, 187: 3, 217: 3}, "Word 106, the first of process 3's event queue, is 0001; process 3 waits for an event, and has one."),
    45: ({127: 5}, "Word 127, the buffer whose answer process 4 waits for, is 0005; buffer 5 is process 5's."),
    46: ({144: 5}, "Word 144, the device that process 5 waits for, plus 1, is 0005; device 4's word is 0000, and not process 5."),
    47: ({78: 3}, "Word 78, process 1's delay, is 0003; process 1 runs, and has no delay then."),
    48: ({14: 5}, "Word 14, device 6's word, is 0005; process 5 waits for device 3."),
}
# Further ways to break some of them, with other words for it.
OTHERS = (
    (19, {3: 1}, "process 2 is the one behind which there is none."), (33, {167: 3}, "process 6 waits for semaphore 3."),
    (32, {227: 9}, "there are 7 processes."), (45, {127: 9}, "process 4 waits for an answer, and there are 5 buffers."),
    (45, {127: 4, 218: 4, 74: 1, 75: 1, 184: 0, 215: 0}, "buffer 4 is orphaned, so that no answer will come."),
    (45, {95: 1}, "process 2 runs, and waits for no answer."), (46, {144: 99}, "process 5 waits for a device, and devices plus 1 are 1 to 64."),
    (46, {80: 2}, "process 1 runs, and waits for no device."), (48, {14: 1}, "process 1 runs."), (48, {14: 9}, "there are 7 processes."),
    (48, {4: 0}, "that is an interrupt kept, which only edition 1 knows."), (39, {234: 1}, "that is 1, and 2 processes wait for semaphore 1."),
    (43, {167: 3, 235: 7, 236: 7, 169: 0, 152: 0, 234: 0xFFFF}, "process 6 waits for a semaphore, and there is 1 semaphore."),
)


def mended():
    """The words of examples/damaged.table before one was written over."""
    words = dumps_in(read(DAMAGED), None, "it")[0].words
    words[OVER] = WAS
    return words


def over(changes):
    """The mended words with others in some places."""
    words = mended()
    for place, word in changes.items():
        words[place] = word
    return words


def page_sentences():
    """The text of docs/MONITOR.md, 3, without its marks and line ends."""
    page = read(os.path.join(HOME, "docs", "MONITOR.md")).decode()
    part = page[page.index("## 3. Sound tables"):page.index("## 4. Laying out")]
    return " ".join(part.replace("**", "").split())


class TableTest(unittest.TestCase):
    """What is told, by the program that the command asks."""

    @classmethod
    def setUpClass(cls):
        cls.monitor = Monitor("explain")

    @classmethod
    def tearDownClass(cls):
        cls.monitor.close()

    def fault(self, words):
        self.monitor.take(words)
        return self.monitor.why()

    def text(self, words, width=80):
        rows, is_sound = told(words, self.monitor, width)
        return "\n".join(rows), is_sound

    def test_every_clause_by_its_words(self):
        self.assertEqual(sorted({1, 5, *CLAUSES}), list(range(1, len(TEXTS))))
        for clause, (changes, said) in CLAUSES.items():
            fault = self.fault(over(changes))
            self.assertEqual((fault[0], word_told(Table(over(changes)), fault)), (clause, said))
        for clause, changes, said in OTHERS:
            fault = self.fault(over(changes))
            self.assertEqual(fault[0], clause)
            self.assertTrue(word_told(Table(over(changes)), fault).endswith(f"; {said}"), (clause, word_told(Table(over(changes)), fault)))

    def test_too_few_words(self):
        for count, clause in ((0, 1), (71, 1), (72, 5), (237, 5)):
            fault = self.fault(mended()[:count])
            self.assertEqual(fault, (clause, 1, count))
            self.assertIn(f"Word {count} is missing: there are {count} words", self.text(mended()[:count])[0])
        self.assertIn("by the header's words 0, 1 and 5, 7 processes, 5 buffers and 1 semaphore, 238 are wanted.",
                      " ".join(self.text(mended()[:237])[0].split()))

    def test_bytes_the_wrong_way_round(self):
        turned = [word >> 8 | (word & 255) << 8 for word in mended()]
        self.assertIn("With the two bytes of each word the other way round it is a sound table", self.text(turned)[0])
        turned[OVER] = 0x3433
        self.assertIn("Without its size nothing else of it can be read.", self.text(turned)[0])

    def test_the_sentences_are_the_pages(self):
        page = page_sentences()
        for bullet, sentences in BULLETS:
            self.assertIn(bullet, page)
            for _, sentence in sentences:
                self.assertIn(sentence.removeprefix("They ").removeprefix("There "), page)
        self.assertEqual(BULLETS[-1][1][-1][0], len(TEXTS) - 1)

    def test_any_one_word_of_the_example_changed(self):
        """Whoever changes a word learns that the table is sound, or which sentence it breaks and which word is named."""
        page, words, seen = page_sentences(), mended(), set()
        for place, kept in enumerate(words):
            for word in {0, 1, 2, 5, 7, 8, 64, 0x8000, 0xFFFF, kept ^ 1, kept + 1 & 0xFFFF} - {kept}:
                words[place] = word
                text, is_sound = self.text(words)
                clause, _, named = self.fault(words)
                self.assertEqual(is_sound, clause == 0)
                if clause:
                    self.assertIn(" ".join(broken(clause)[1].split()).removeprefix("They ").removeprefix("There "), page)
                    self.assertIn(f"Clause {clause}, of ", text)
                    self.assertRegex(text, rf"(?m)^  (?:around|      )   ?>? *{named} [0-9A-F]{{4}}|Word {named} is missing")
                seen.add(clause)
            words[place] = kept
        self.assertEqual(set(range(len(TEXTS))) - seen, {1, 11, 44})  # those want fewer words, or more than one word changed

    def test_the_station_of_a_sound_table(self):
        text, is_sound = self.text(mended())
        self.assertTrue(is_sound)
        for said in ("The table is sound.", "7 processes, 5 buffers, 1 semaphore, edition 1: 238 words.", "READ runs; ready behind it: SPELL.",
                     "SPELL was woken by an event.", "SHOW for an event, 10 ticks at most.", "PRINT for the answer to buffer 4, queued at READ.",
                     "PUNCH for device 3, 7 ticks at most.", "HYPH for semaphore 1.", "SPELL: buffer 2, an answer from SHOW.",
                     '4 PRINT>READ queued, 1 tick old: 7368 6565 7420 3132 "sheet 12".', "1 of 5 buffers.", "semaphore 1: -2, INDEX, HYPH waiting.",
                     "an interrupt from device 6."):
            self.assertIn(said, text)
        self.assertNotIn("!", text)

    def test_rings_and_words_beyond(self):
        self.monitor.ask("L", 0, 0, 2, 1, 0x4100, 0, 0, 1, 1, 0x4200, 0, 0)
        for process, other in ((1, 2), (2, 1)):  # each is started, sends to the other, and waits for its answer
            for call, a in ((lines.START, process), (lines.SEND, other), (lines.WAIT_ANSWER, process)):
                self.monitor.ask("C", call, a, 0, 0, 0, 0, 0)
        text, is_sound = self.text([*self.monitor.words(), 9, 9])
        self.assertTrue(is_sound)
        self.assertIn("Nobody runs.", text)
        self.assertIn("A behind B behind A, a ring: only a stop or a clean of one of them ends it.", " ".join(text.split()))
        self.assertIn("124 words, and 2 words beyond it that nobody reads.", " ".join(text.split()))

    def test_what_contradicts_is_marked(self):
        text, is_sound = self.text(over({72: 3}))
        self.assertFalse(is_sound)
        self.assertIn("  running   ! READ runs; word 72 leads astray; not met: SPELL.", text)
        self.assertIn("and of process 1 nothing is sure.", " ".join(text.split()))
        self.assertIn("  waiting   SHOW for an event, 10 ticks at most.", text)
        text, _ = self.text(over({108: 6, 227: 9, 234: 1, 4: 0, 127: 0, 208: 5}))
        for said in ("! SHOW is in state 6, which there is not.", "! 5 PUNCH>process 9 held", "! semaphore 1: 1,", "! an interrupt from device 6.",
                     "! PRINT for the answer to buffer 0, which there is not.", "! 3 SPELL>process 0 of standing 5"):
            self.assertIn(said, text)

    def test_rows_keep_their_width(self):
        for width in (40, 80):
            for changes in ({}, *(changes for changes, _ in CLAUSES.values())):
                text, _ = self.text(over(changes), width)
                self.assertLessEqual(max(map(len, text.split("\n"))), width)

    def test_whatever_the_words(self):
        """Words of any kind are told, and their sentence is one of the page's."""
        draw, told_sound = random.Random(39), 0
        for _ in range(1500):
            words = mended()[:draw.choice((240, 240, 240, 200, 80, 5, 0))]
            for _ in range(draw.randint(0, 12)):
                if words:
                    words[draw.randrange(len(words))] = draw.choice((draw.randrange(10), draw.randrange(200), draw.randrange(65536)))
            if draw.random() < 0.1:
                words = [draw.choice((draw.randrange(8), draw.randrange(65536))) for _ in range(draw.randrange(2000))]
            text, is_sound = self.text(words, draw.choice((40, 80)))
            told_sound += is_sound
            self.assertTrue(is_sound or re.search(r"Clause\s+\d+,", text))
        self.assertGreater(told_sound, 20)


if __name__ == "__main__":
    unittest.main()
