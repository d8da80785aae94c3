"""./console as it is typed: scripts, logs and words, files that are left alone, mistakes and exit codes, and a person at a terminal."""

import glob
import os
import pty
import random
import select
import subprocess
import time
import unittest

from tests.console.drawing import Drawing
from tests.console.room import CONSOLE, HOME, LONGEST, Folder
from tests.console.test_language import LOGS

LAID = "process READ priority 5 buffers 2\nprocess SPELL priority 3 buffers 1\n"
SENT = LAID + 'start READ\nstart SPELL\nREAD: send SPELL "page 7"\n'
SCRIPTS = sorted(glob.glob(os.path.join(HOME, "examples", "words", "*.words")))
SEND = b"01000200007061676520370000"


class CommandTest(unittest.TestCase):
    def setUp(self):
        self.folder = Folder().__enter__()
        self.addCleanup(self.folder.__exit__)

    def ends(self, run, code, told, complaint):
        """How a run ended: its code, whether it told something, and what it complained of."""
        self.assertEqual((run.returncode, bool(run.stdout), run.stderr.decode()), (code, told, complaint))


class ScriptsTest(CommandTest):
    def test_a_script_by_every_way_in(self):
        path = self.folder.put("a.words", SENT)
        runs = [self.folder.run(path), self.folder.run("-", typed=SENT), self.folder.run(typed=SENT)]
        for run in runs:
            self.ends(run, 0, True, "")
            self.assertEqual(run.stdout, runs[0].stdout)
        self.assertIn(b'"page 7" to SPELL: it goes out in buffer\n               1. READ runs on.', runs[0].stdout)
        self.assertLessEqual(max(map(len, runs[0].stdout.decode().split("\n"))), 80)

    def test_the_examples_run_and_come_back(self):
        self.assertGreaterEqual(len(SCRIPTS), 7)
        for path in SCRIPTS:
            self.ends(self.folder.run(path), 0, True, "")
            log = self.folder.run("--log", "-", path).stdout
            again = self.folder.run("--log", "-", "-", typed=self.folder.run("--words", "-", typed=log).stdout).stdout
            self.assertEqual(again, log)

    def test_logs_to_words_and_back(self):
        for path in LOGS:
            words = self.folder.run("--words", path)
            self.ends(words, 0, True, "")
            with open(path, "rb") as file:
                self.assertEqual(self.folder.run("--log", "-", typed=words.stdout).stdout, file.read(), path)

    def test_a_log_with_its_answers(self):
        self.ends(self.folder.run("--log", "a.log", "--answers", typed=SENT), 0, False, "")
        rows = self.folder.get("a.log").split(b"\n")
        self.assertEqual(rows[-3:], [SEND, b"> 000000000100010000000000000000", b""])
        self.ends(self.folder.run("--log", "a.log", typed=SENT), 0, False, "")
        self.assertEqual(self.folder.get("a.log").split(b"\n")[-2:], [SEND, b""])
        spellers = os.path.join(HOME, "examples", "dictionary", "spellers.log")
        run = self.folder.run("--semaphores", "1", "--log", "-", "--answers", spellers)
        with open(spellers, "rb") as file:
            self.assertEqual(run.stdout, file.read())
        self.assertEqual(run.stderr.decode(), "console: a log has no line for edition and semaphores; this one's are --semaphores 1.\n")

    def test_edition_and_semaphores_of_a_log(self):
        run = self.folder.run("--edition", "1", "--semaphores", "1,0", "--words", os.path.join(HOME, "examples", "worked.log"))
        self.assertTrue(run.stdout.startswith(b"edition 1\nsemaphore 1\nsemaphore 0\nprocess A "))

    def test_save_and_load(self):
        run = self.folder.run(typed=f"{SENT}save run.log\nsave run.words\nload run.words\nsave two.log\nload run.log\nsave three.log\nundo\nopen\n")
        self.ends(run, 0, True, "")
        self.assertIn(b"Saved in 'run.log': 5 lines.", run.stdout)
        self.assertEqual(self.folder.get("run.log"), self.folder.get("two.log"))
        self.assertEqual(self.folder.get("run.log"), self.folder.get("three.log"))
        self.assertTrue(self.folder.get("run.words").startswith(b"# A run saved by ./console.\nprocess READ "))
        self.assertTrue(run.stdout.endswith(b"Taken back: 'send'. The run has 4 lines.\nNothing open.\n"))
        run = self.folder.run(typed="edition 1\nprocess A priority 1\nsave e.log")
        self.assertIn(b"A log has no line for edition and semaphores: ./explain --edition 1 tells it.", run.stdout)

    def test_undo_goes_back_behind_a_load(self):
        self.folder.put("b.words", "process X priority 1\n")
        run = self.folder.run(typed=f"{SENT}load b.words\nundo\nundo\nopen\nagain\nagain\nscreen\n")
        self.assertIn(b"Taken back: the file that was loaded. The run has 5 lines.\n1 READ>SPELL queued: 7061", run.stdout)
        self.assertTrue(run.stdout.endswith(b"\nX      stopped                                                     0     0\n"))

    def test_quit_ends_a_script(self):
        run = self.folder.run(typed="process X priority 1\nquit\nsend Y\n")
        self.ends(run, 0, True, "")

    def test_an_empty_script(self):
        self.ends(self.folder.run(typed=""), 0, False, "")
        self.ends(self.folder.run("--log", "-", typed="# nothing\n"), 0, False, "")
        self.ends(self.folder.run("--words", typed=""), 0, False, "")

    def test_bytes_of_every_kind(self):
        self.ends(self.folder.run(typed=b"\xef\xbb\xbfprocess A priority 1\r\nstart A\r\n"), 0, True, "")
        run = self.folder.run(typed="process \u00dcber priority 1\nstart \u00fcber\n")
        self.ends(run, 0, True, "")
        self.assertIn(b"Start #1", run.stdout)


class MistakesTest(CommandTest):
    def test_mistakes_are_told_before_anything_is_run(self):
        path = self.folder.put("a.words", LAID + "sned SPELL\ntick\nwait\n")
        self.ends(self.folder.run(path), 1, False,
                  f"console: the file '{path}', line 3, column 1: expected the first word of a form ('help' names them all), and found 'sned'; "
                  "the nearest word is send.\n    sned SPELL\n    ^\n"
                  f"console: the file '{path}', line 5, column 5: expected answer, event or interrupt, and found the end of the line.\n    wait\n        ^\n")

    def test_a_mistake_in_the_run_ends_it(self):
        run = self.folder.run(typed=SENT + "start SPEL\ntick\n")
        self.assertEqual((run.returncode, run.stderr.decode()),
                         (1, "console: standard input, line 6, column 7: there is no process 'SPEL'; the nearest name is SPELL.\n"
                             "    start SPEL\n          ^\n"))
        self.assertNotIn(b"Tick", run.stdout)
        run = self.folder.run("--log", "no.log", typed=SENT + "SPELL: wait event\n")
        self.ends(run, 1, False, "console: standard input, line 6, column 1: SPELL doesn't run, so it can't call: READ runs.\n    SPELL: wait event\n    ^\n")
        self.assertFalse(os.path.exists(self.folder.place("no.log")))

    def test_many_mistakes_are_counted(self):
        run = self.folder.run(typed="x\n" * 25)
        self.assertEqual((run.returncode, run.stderr.count(b"column 1"), run.stderr.split(b"\n")[-2]), (1, 10, b"console: and 15 mistakes more."))

    def test_files_are_left_alone(self):
        self.folder.put("mine.txt", "not to be lost")
        self.folder.put("old.log", SEND + b"\n")
        os.mkdir(self.folder.place("folder"))
        for name, sentence in (("mine.txt", "'mine.txt' is there and is no older log, so it is left alone."), ("folder", "'folder' is a folder, not a file."),
                               ("no/where.log", "the file 'no/where.log' can't be written: No such file or directory."),
                               ("", "a file that is written wants a name.")):
            self.ends(self.folder.run("--log", name, typed=SENT), 2, False, f"console: {sentence}\n")
        self.ends(self.folder.run("--log", "old.log", "old.log"), 2, False,
                  "console: 'old.log' is what is read, and is left alone; give the log another name.\n")
        run = self.folder.run(typed=SENT + "save mine.txt\n")
        self.assertIn(b"line 6, column 1: 'mine.txt' is there and is no older saved words, so it is left alone.", run.stderr)
        self.assertEqual(self.folder.get("mine.txt"), b"not to be lost")
        self.assertEqual(sorted(os.listdir(self.folder.path)), ["folder", "mine.txt", "old.log"])

    def test_a_page_takes_the_place_of_a_page_only(self):
        self.folder.put("mine.html", "<p>not to be lost")
        self.ends(self.folder.run("--page", "mine.html"), 2, False, "console: 'mine.html' is there and is no page of ./console, so it is left alone.\n")
        self.ends(self.folder.run("--page", "x.html", "script"), 2, False,
                  "console: a page has its scenarios inside, and no script; ./console --help says how it is used.\n")
        self.ends(self.folder.run("--page", "x.html", env=dict(os.environ, PATH=self.folder.path_without_clang())), 2, False,
                  "console: there is no 'clang', which makes the page's WebAssembly; on Debian it is in the packages 'clang' and 'lld'.\n")
        self.assertEqual(self.folder.get("mine.html"), b"<p>not to be lost")

    def test_loads_that_fail_change_nothing(self):
        self.folder.put("bad.words", LAID + "sned\n")
        self.folder.put("worse.words", LAID + "start PRINT\n")
        self.folder.put("self.words", "load self.words\n")
        for name, sentence in (("bad.words", "the file 'bad.words', line 3, column 1: expected the first word of a form ('help' names them all), and found"
                                             " 'sned'; the nearest word is send."),
                               ("worse.words", "the file 'worse.words', line 3, column 7: there is no process 'PRINT'; there are READ, SPELL."),
                               ("self.words", "the file 'self.words', line 1, column 1: a file that is loaded can't 'load'."),
                               ("none.words", "the file 'none.words' can't be read: No such file or directory.")):
            run = self.folder.run(typed=f"{SENT}load {name}\n")
            self.assertEqual((run.returncode, run.stderr.decode().split("\n")[0]), (1, f"console: standard input, line 6, column 1: {sentence}"))

    def test_words_of_the_command_line(self):
        for words, sentence in (("--faster", "there is no option '--faster'; "), ("--answers a", "--answers goes with --log; "),
                                ("--log a --words b", "--words: not allowed with argument --log; "), ("nothing", "the file 'nothing' can't be read: No such"),
                                (".", "'.' is a folder, not a file."), ("--edition 2", "--edition: an edition is a number from 0 to 1; "),
                                ("--log", "--log wants something behind it; ")):
            run = self.folder.run(*words.split())
            self.assertEqual((run.returncode, run.stdout, run.stderr.count(b"\n")), (2, b"", 1), words)
            self.assertIn(f"console: {sentence}", run.stderr.decode())
        told = self.folder.run("--help").stdout.decode()
        self.assertLessEqual(max(map(len, told.split("\n"))), 80)
        for option in ("--log OUT", "--words", "--answers", "--edition N", "--semaphores"):
            self.assertIn(option, told)
        self.assertTrue(self.folder.run("--version").stdout.startswith(b"console "))

    def test_no_script_shows_a_traceback(self):
        draw = random.Random(43)
        for seed in range(60):
            lines = [*Drawing(seed).script().split("\n"), "screen", "open", "rings", "stuck 1", "stuck X", "table", "why", "undo", "again", "help", "help x",
                     "load x", "save /x/y", "torn", "edition 9", "semaphore 65535", "\0", "\ud800".encode("utf-8", "surrogatepass").decode("latin-1")]
            draw.shuffle(lines)
            data = bytearray("\n".join(lines), "utf-8")
            for _ in range(draw.choice((0, 0, 3, 30))):
                data[draw.randrange(len(data))] = draw.randrange(256)
            run = self.folder.run(typed=bytes(data), env=dict(os.environ, LC_ALL=draw.choice(("C", "C.UTF-8", "POSIX"))))
            self.assertIn(run.returncode, (0, 1), data)
            self.assertNotIn(b"Traceback", run.stderr)


class TerminalTest(unittest.TestCase):
    """A person at a terminal of 24 lines."""

    def talk(self, *typed):
        """What the terminal shows while these are typed, each once the prompt is there."""
        here, there = pty.openpty()
        process = subprocess.Popen([CONSOLE], stdin=there, stdout=there, stderr=there, start_new_session=True, env=dict(os.environ, TERM="vt100"))
        os.close(there)
        shown = b""
        for keys in [*typed, None]:
            end = time.monotonic() + LONGEST
            while not shown.rstrip(b"\x1b[?2004hl").endswith(b": ") and time.monotonic() < end:
                if select.select([here], [], [], 1)[0]:
                    try:
                        shown += os.read(here, 4096)
                    except OSError:  # the other end is closed
                        break
            if keys is not None:
                shown += b"~"
                os.write(here, keys)
        os.close(here)
        return shown.decode(), process.wait(LONGEST)

    def test_a_person(self):
        shown, code = self.talk(b"process READ priority 5\r", b"start READ\r", b"tock\r", b"sta\t rea\t\r", b"\x04")
        self.assertIn("A station in words: 'help' names all words", shown)
        self.assertIn("layout: ~", shown)
        self.assertIn("READ: ~", shown)
        self.assertIn("the nearest word is tick.", shown)
        self.assertIn("start", shown.split("tock", 1)[1])
        self.assertEqual(code, 0)

    def test_the_end(self):
        self.assertEqual(self.talk(b"quit\r")[1], 0)


if __name__ == "__main__":
    unittest.main()
