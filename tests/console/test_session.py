"""A run in words: what is served and told, undo and again, and what is shown beside the calls; by the monitor itself."""

import glob
import os
import unittest

from desk.console.console import Console, Quit, statements_of
from desk.console.keyboard import completions, prompt
from desk.console.mistakes import Mistake
from desk.served.monitor import Monitor
from desk.console.reading import read_script
from desk.console.session import Session
from desk.explain.telling import Telling
from desk.log import lines
from desk.log.lines import MARK
from tests.console.drawing import Drawing
from tests.console.room import HOME

VECTORS = sorted(glob.glob(os.path.join(HOME, "tests", "vectors", "replay", "*.in")))
LAID = "process READ priority 5 buffers 2\nprocess SPELL priority 3 buffers 1\n"
SENT = LAID + 'start READ\nstart SPELL\nsend SPELL "page 7"\nwait answer 1\n'
RING = LAID + ("process SHOW priority 1 buffers 1\nstart READ\nstart SPELL\nstart SHOW\nsend SPELL\nwait answer 1\nsend READ\nwait answer 3\n"
               "send SPELL\nwait answer 4\n")


def read(path):
    """The bytes of a file."""
    with open(path, "rb") as file:
        return file.read()


class SessionTest(unittest.TestCase):
    def setUp(self):
        self.monitor = Monitor()
        self.addCleanup(self.monitor.close)
        self.console = Console(Session(self.monitor))
        self.session = self.console.session

    def do(self, words):
        """Does some words; gives what they were told as, with single blanks."""
        statements, mistakes = read_script(words)
        self.assertEqual([mistake.told() for mistake in mistakes], [])
        return [" ".join(told.split()) for statement in statements for told in self.console.do(statement)]

    def refused(self, words, column, sentence):
        """The last of some words is a mistake, and has done nothing."""
        *before, last = words.split("\n")
        self.do("\n".join(before))
        kept = self.session.log(True), list(self.session.steps)
        with self.assertRaises(Mistake) as caught:
            self.do(last)
        self.assertEqual((caught.exception.column, caught.exception.sentence), (column, sentence))
        self.assertEqual((self.session.log(True), list(self.session.steps)), kept)


class RunTest(SessionTest):
    def test_the_outside_vectors(self):
        """A line that is marked as an answer is none of the run's; the replay, which knows no marks, answers it with FF."""
        for path in VECTORS:
            self.session.rebuild([])
            statements, mistakes = statements_of(read(path))
            self.assertFalse(mistakes)
            for statement in statements:
                self.console.do(statement)
            raws = lines.cut(read(path))
            due = [line.written for line in lines.follow(read(path), read(path[:-3] + ".out")) if not raws[line.place - 1].startswith(MARK)]
            self.assertEqual([tuple(written) for written in self.session.written if written], [written for written in due if written], path)

    def test_every_example_is_told_as_explain_tells_it(self):
        for path in glob.glob(os.path.join(HOME, "examples", "*.log")):
            self.session.rebuild([])
            told = [row for statement in statements_of(read(path))[0] for row in self.console.do(statement)]
            output = b"".join(line + b"\n" for written in self.session.written for line in written)
            telling = Telling()
            self.assertEqual([row for row in told if not row.startswith("The layout was")],
                             [telling.tell(line) for line in lines.follow(read(path), output)], path)

    def test_a_station_with_a_semaphore(self):
        path = os.path.join(HOME, "examples", "dictionary", "spellers.log")
        self.do("semaphore 1")
        for statement in statements_of(read(path))[0]:
            self.console.do(statement)
        self.assertEqual(self.session.log(answers=True), read(path))

    def test_the_second_edition(self):
        self.do("edition 1\nprocess A priority 1\nstart A\ninterrupt 3")
        self.assertIn("an interrupt was kept for it", self.do("wait interrupt 3")[0])
        self.session.rebuild([])
        self.do("process A priority 1\nstart A\ninterrupt 3")
        self.assertIn("A waits", self.do("wait interrupt 3")[0])

    def test_who_calls(self):
        self.do(SENT)
        self.assertIn("the message", self.do("spell: wait event")[0])
        self.refused("READ: wait answer 1", 1, "READ doesn't run, so it can't call: SPELL runs.")
        self.refused("  1: wait event", 3, "READ doesn't run, so it can't call: SPELL runs.")
        self.refused("9: wait event", 1, "there is no process 9 that could call.")
        self.refused("PRINT: wait event", 1, "there is no process 'PRINT'; there are READ, SPELL.")
        self.session.rebuild([])
        self.refused(LAID + "READ: send SPELL", 1, "READ doesn't run, so it can't call: nobody runs.")

    def test_refusals(self):
        self.do(LAID)
        for said, number in (("send SPELL", 2), ("start 99", 4), ("wait interrupt 64", 2), ("interrupt 64", 3), ("start READ", 0), ("start READ", 7),
                             ("send READ", 8), ("send 0", 4), ("wait answer 3", 6), ("answer 1", 6), ("lower 1", 19), ("call 2A", 13),
                             ("wait interrupt 64", 3)):
            self.do(said)
            self.assertEqual(int(self.session.written[-1][0][:2], 16), number, said)

    def test_refused_layouts(self):
        for head, why in (("", "There is no layout line."), ("process A priority 0", "Process 1, A (line 1): its priority is 0"),
                          ("edition 7\nprocess A priority 1", "The edition is 7, and there are 0 and 1."),
                          ("semaphore 0\nsemaphore 40000\nprocess A priority 1", "Semaphore 2 begins with 40000, and 32767 is the most."),
                          ("process A priority 1\n" * 40, "There are 40 processes"),
                          ("semaphore 1\n" * 20 + "process A priority 1", "There are 20 semaphores, and 16 are the most.")):
            self.session.rebuild([])
            self.do(head)
            told = self.do("tick")
            self.assertIn("The layout is refused with 11", told[0])
            self.assertIn(why, " ".join(told))
            self.assertIn("The layout was refused", self.do("tick")[0])
            self.assertEqual(self.session.written[-2:], [(b"0B" + b"0" * 28,), ()])
            shown = self.do("screen")
            self.assertIn("The layout is refused", shown[0])
            self.assertIn(why, " ".join(shown))
            self.do("undo\nundo")
            self.assertFalse(self.session.over)

    def test_what_comes_too_late(self):
        self.refused(LAID + "start READ\nedition 1", 1, "the station is laid out already; 'edition' comes before the first call.")
        self.refused("semaphore 1", 1, "the station is laid out already; 'semaphore' comes before the first call.")
        self.assertIn("No call (FF): it is a layout line, and the layout is done.", self.do("process LATE priority 1")[0])
        self.refused("torn\ntick", 1, "nothing comes behind 'torn', which says how the log ends.")
        self.assertFalse(self.session.log().endswith(b"\n"))

    def test_answers_of_a_station_are_passed_over(self):
        self.assertEqual(len(self.do(LAID + "start READ\n> 070000000000000000000000000000\n> x")), 3)
        self.assertTrue(self.session.log().endswith(b"\n> 070000000000000000000000000000\n> x\n"))
        self.assertTrue(self.session.log(answers=True).endswith(b"0\n> 000000000000010000000000000000\n"))


class BackAndForthTest(SessionTest):
    def test_undo_and_again(self):
        said = SENT.strip().split("\n") + ["tick 3", "stop SPELL"]
        states = []
        for line in said:
            states.append((self.session.log(True), self.session.names.laid and self.monitor.words()))
            self.do(line)
        last = self.session.log(True), self.monitor.words()
        for state in reversed(states):
            self.assertIn("Taken back", self.do("undo")[0])
            self.assertEqual((self.session.log(True), self.session.names.laid and self.monitor.words()), state)
        self.assertEqual(self.do("undo"), ["There is nothing to take back."])
        for _ in said:
            self.assertNotEqual(self.do("again"), ["Nothing was taken back."])
        self.assertEqual((self.session.log(True), self.monitor.words()), last)
        self.assertEqual(self.do("again"), ["Nothing was taken back."])
        self.do("undo\ntick")
        self.assertEqual(self.do("again"), ["Nothing was taken back."])

    def test_settings_are_taken_back(self):
        self.do("edition 1\nsemaphore 5\nundo\nundo\nsemaphore 2")
        self.assertEqual((self.session.edition, self.session.counters), (0, [2]))

    def test_drawn_scripts_are_the_same_after_undo_and_again(self):
        for seed in range(100):
            self.session.rebuild([])
            statements, _ = read_script(Drawing(seed).script())
            for statement in statements:
                self.console.do(statement)
            log = self.session.log(True)
            for word in ("undo", "undo", "undo", "again", "again", "again"):
                self.do(word)
            self.assertEqual(self.session.log(True), log, seed)


class KeyboardTest(SessionTest):
    def test_completion(self):
        self.do(LAID)
        for before, begun, due in (("", "st", ["stuck ", "start ", "stop "]), ("wait ", "", ["answer ", "event ", "interrupt "]), ("start ", "s", ["SPELL "]),
                                   ("READ: ", "wa", ["wait "]), ("READ : wait ", "e", ["event "]), ("process X ", "p", ["priority "]),
                                   ("help ", "ti", ["tick "]), ("send READ ", "", []), ("zebra ", "", []), ("save ", "", [])):
            self.assertEqual(sorted(completions(before, begun, self.session)), sorted(due), before)

    def test_the_prompt_says_who_runs(self):
        self.assertEqual(prompt(self.session), "layout: ")
        self.do(LAID + "tick")
        self.assertEqual(prompt(self.session), "nobody: ")
        self.do("start SPELL")
        self.assertEqual(prompt(self.session), "SPELL: ")
        self.session.rebuild([])
        self.do("tick")
        self.assertEqual(prompt(self.session), "refused: ")


class ShownTest(SessionTest):
    def test_screen(self):
        self.assertEqual(self.do(SENT + "screen")[-3:], ["name state waits for queue sent", "READ waits the answer to buffer 1, queued at SPELL 0 1",
                                                         "SPELL current 1 0"])

    def test_before_the_first_call(self):
        self.assertEqual(self.do(LAID + "screen")[-1], "SPELL stopped 0 0")
        self.assertEqual(self.do("open\nrings"), ["Nothing open.", "There is no ring."])
        self.assertFalse(self.session.names.laid)
        self.do("process PRINT priority 1\nstart PRINT")

    def test_open(self):
        self.assertEqual(self.do(SENT + "tick\nopen")[-1], '1 READ>SPELL queued (1 tick): 7061 6765 2037 0000 "page 7".')

    def test_stuck_and_rings(self):
        self.assertEqual(self.do(SENT + "stuck READ")[-1], "READ behind SPELL, which runs.")
        self.assertEqual(self.do("stuck SPELL"), ["Refused with 7: SPELL is in the running queue, so it is stuck behind nobody."])
        self.assertEqual(self.do("stuck 3"), ["Refused with 4, there is no such process (processes are 1 to 2)."])
        self.assertEqual(self.do("rings"), ["There is no ring."])
        self.session.rebuild([])
        ring = "READ behind SPELL behind READ, a ring: only a stop or a clean of one of them ends it."
        self.assertEqual(self.do(RING + "rings")[-1], ring)
        self.assertEqual(self.do("stuck READ"), [ring])
        self.assertEqual(self.do("stuck SHOW"), ["SHOW behind SPELL, which is in the ring of SPELL.",
                                                 "SPELL behind READ behind SPELL, a ring: only a stop or a clean of one of them ends it."])
        self.assertEqual(self.do("clean SPELL\nrings")[-1], "There is no ring.")

    def test_table(self):
        told = self.do("semaphore 7\n" + SENT + "table")
        self.assertIn("0 0002 0003 0002 0002 0000 0001 0000 0000 header", told)
        self.assertIn("104 0000 0000 0001 0002 0001 0000 7061 6765 2037 0000 buffer 1", told)
        self.assertEqual(told[-1], "134 0007 0000 0000 0000 semaphore 1")
        begin = next(place for place, row in enumerate(told) if row.endswith("header"))
        shown = [int(word, 16) for row in told[begin:] for word in row.split()[1:] if len(word) == 4 and word != "READ"]
        self.assertEqual(shown, [word for place, word in enumerate(self.monitor.words()) if not 8 <= place < 72])

    def test_why(self):
        self.assertEqual(self.do(SENT + "why")[-1], "The table is sound.")
        words = self.monitor.words()
        words[72 + 16 + 9] = 0
        self.monitor.take(words)
        told = self.do("why")
        self.assertEqual(told[:3], ["The table isn't sound: a priority isn't 1 to 255.", 'broken Clause 9, of "Fixed words" in docs/MONITOR.md, 3: "Priorities '
                                    'are 1 to 255."', "word Word 97, process 2's priority, is 0000; priorities are 1 to 255."])

    def test_help(self):
        self.assertIn("process NAME priority PRIORITY [buffers COUNT]", self.do("help"))
        self.assertEqual(self.do("help TICK")[0], "tick [TICKS]")
        self.refused("help teck", 6, "expected a word of this language, and found 'teck'; the nearest word is tick.")
        with self.assertRaises(Quit):
            self.do("quit")


if __name__ == "__main__":
    unittest.main()
