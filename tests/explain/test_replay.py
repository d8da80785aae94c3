"""What ./replay says and does for good and bad words, with a kit, without one, and with one that fails."""

import os
import select
import shutil
import subprocess
import unittest

from tests.explain.room import EXAMPLES, HOME, LONGEST, VECTORS, Room, read

WORKED = os.path.join(HOME, "examples", "worked.log")
WORKED_OUTPUT = b"""000000000000010000000000000000
000000000000010000000000000000
000000000100010000000000000000
000000000000020000000000000000
000001000100021111222233334444
000000000000010000000000000000
000001000000010000000000000000
00010001000200030000
"""


class BuiltTest(unittest.TestCase):
    """With a program built."""

    def setUp(self):
        self.room = Room().__enter__()
        self.addCleanup(self.room.__exit__)
        self.room.build()

    def refused(self, words, sentence):
        run = self.room.run("replay", *words)
        self.assertEqual((run.returncode, run.stdout), (2, b""))
        self.assertEqual(run.stderr.decode(), f"replay: {sentence}\n")

    def test_file_and_standard_input(self):
        self.assertEqual(self.room.run("replay", WORKED).stdout, WORKED_OUTPUT)
        self.assertEqual(self.room.run("replay", log=read(WORKED)).stdout, WORKED_OUTPUT)

    def test_blanks_in_names_and_a_link(self):
        shutil.copy(WORKED, self.room.place("a log of calls"))
        os.symlink(self.room.place("replay"), os.path.join(self.room.above.name, "linked"))
        run = subprocess.run([os.path.join(self.room.above.name, "linked"), "a log of calls"], capture_output=True,
                             cwd=self.room.folder, check=False)
        self.assertEqual((run.returncode, run.stdout, run.stderr), (0, WORKED_OUTPUT, b""))

    def test_bad_words(self):
        self.refused(["nowhere.log"], "there is no file 'nowhere.log'.")
        self.refused([self.room.folder], f"'{self.room.folder}' is a folder, not a file.")
        self.refused([WORKED, WORKED], "one file at a time, please: 2 were named.")
        self.refused(["--faster"], "there is no option '--faster'; ./replay --help says how it is used.")

    @unittest.skipIf(os.geteuid() == 0, "the superuser may read every file")
    def test_a_file_that_may_not_be_read(self):
        closed = self.room.place("closed.log")
        shutil.copy(WORKED, closed)
        os.chmod(closed, 0)
        self.refused([closed], f"the file '{closed}' may not be read.")

    def test_help(self):
        run = self.room.run("replay", "--help")
        self.assertEqual((run.returncode, run.stderr), (0, b""))
        self.assertIn(b"usage: ./replay [--proved] [FILE]", run.stdout)

    def test_which_program_it_runs(self):
        shutil.copy(os.path.join(HOME, "VERSION"), self.room.folder)
        self.assertIn(b"It runs source/replay.c, the proved program's code translated to C", self.room.run("replay", "--version").stdout)
        self.assertIn(b"It runs the proved program as the Rattle kit makes it", self.room.run("replay", "--proved", "--version").stdout)


class CompiledTest(unittest.TestCase):
    """Where the program has to be compiled first."""

    COMPILER = "echo compiled >>said\nwhile [ $# -gt 0 ]; do\nif [ \"$1\" = -o ]; then cp stand_in \"$2\"; fi\nshift\ndone"

    def test_no_compiler(self):
        with Room() as room:
            run = room.run("replay", WORKED, path=room.path_without("cc"))
            self.assertEqual((run.returncode, run.stdout), (2, b""))
            self.assertEqual(run.stderr.decode(), "replay: there is no C compiler 'cc', and the replay is not built yet; "
                                                  "on Debian it is in the package 'gcc'.\n")

    def test_compiled_once_and_again_for_a_newer_source(self):
        with Room() as room:
            room.build()
            shutil.move(room.program, room.place("stand_in"))
            os.makedirs(room.place("source"))
            with open(room.place("source", "replay.c"), "w", encoding="utf-8"):
                pass
            path = room.put_kit(self.COMPILER, "cc")
            for times in (1, 1):
                run = room.run("replay", WORKED, path=path, folder=room.folder)
                self.assertEqual((run.returncode, run.stdout, run.stderr), (0, WORKED_OUTPUT, b""))
                self.assertEqual(read(room.place("said")).count(b"\n"), times)
            os.utime(room.program, (0, 0))
            room.run("replay", WORKED, path=path, folder=room.folder)
            self.assertEqual(read(room.place("said")).count(b"\n"), 2)

    def test_a_build_that_fails_leaves_nothing(self):
        with Room() as room:
            run = room.run("replay", WORKED, path=room.put_kit("echo what the compiler says\nfalse", "cc"))
            self.assertEqual((run.returncode, run.stdout), (2, b""))
            self.assertIn(b"what the compiler says\nreplay: the build did not succeed", run.stderr)
            self.assertEqual(os.listdir(os.path.dirname(room.program)), [])


class UnbuiltTest(unittest.TestCase):
    """Where the proved program has to be built first."""

    def test_no_kit(self):
        with Room() as room:
            run = room.run("replay", "--proved", WORKED, path=room.path_without("rt"))
            self.assertEqual((run.returncode, run.stdout), (2, b""))
            self.assertIn(b"the Rattle kit is missing", run.stderr)
            self.assertEqual(run.stderr.count(b"\n"), 1)

    def test_built_once_and_again_for_a_newer_source(self):
        with Room() as room:
            kit = f"mkdir -p out\nprintf '%s\\n' '#!/bin/sh' '{room.stand_in}' >out/replay\n"
            path = room.put_kit(kit + "chmod +x out/replay")
            first, second = (room.run("replay", "--proved", WORKED, path=path) for _ in range(2))
            self.assertEqual((first.returncode, first.stdout), (0, WORKED_OUTPUT))
            self.assertIn(b"building the replay, once", first.stderr)
            self.assertEqual((second.stdout, second.stderr), (WORKED_OUTPUT, b""))
            os.utime(room.proved, (0, 0))
            self.assertIn(b"building", room.run("replay", "--proved", WORKED, path=path).stderr)

    def test_a_build_that_fails_leaves_nothing(self):
        with Room() as room:
            path = room.put_kit("mkdir -p out\necho half >out/replay\nchmod +x out/replay\nexit 1")
            run = room.run("replay", "--proved", WORKED, path=path)
            self.assertEqual((run.returncode, run.stdout), (2, b""))
            self.assertIn(b"the build did not succeed", run.stderr)
            self.assertFalse(os.path.exists(room.proved))


class ProvedTest(unittest.TestCase):
    """The proved program itself, held to the vectors and, on the examples, to the stand-in."""

    COMMAND = (os.path.join(HOME, "replay"), "--proved")

    @classmethod
    def setUpClass(cls):
        if not os.path.exists(os.path.join(HOME, "target", "bin", "replay")) and not shutil.which("rt"):
            raise unittest.SkipTest("the proved replay isn't built, and there is no kit to build it")
        cls.replay(WORKED)  # builds it, so that no test has to wait for that

    @classmethod
    def replay(cls, log):
        return subprocess.run([*cls.COMMAND, log], stdout=subprocess.PIPE, check=True).stdout

    def open(self):
        """The replay at the end of a pipe; a with-statement closes the pipe."""
        return subprocess.Popen([*self.COMMAND], stdin=subprocess.PIPE, stdout=subprocess.PIPE, bufsize=0)

    def answer(self, running):
        """The next line that it writes, if one comes before long."""
        self.assertTrue(select.select([running.stdout], [], [], LONGEST)[0], "no answer came")
        return running.stdout.readline()

    def test_a_full_disk_is_told(self):
        with open("/dev/full", "wb") as full:
            run = subprocess.run([*self.COMMAND, WORKED], stdout=full, stderr=subprocess.PIPE, check=False)
        self.assertEqual((run.returncode, run.stderr),
                         (2, b"replay: standard output can't be written: No space left on device.\n"))

    def test_answers_come_while_the_pipe_is_open(self):
        lines, answers = read(WORKED).splitlines(True), WORKED_OUTPUT.splitlines(True)
        with self.open() as running:
            running.stdin.write(b"".join(lines[:2]))
            for line, answer in zip(lines[2:], answers):
                running.stdin.write(line)
                self.assertEqual(self.answer(running), answer)
            self.assertEqual(self.answer(running), answers[-1])
            running.stdin.close()
            self.assertEqual((running.wait(LONGEST), running.stdout.read()), (0, b""))

    def test_a_last_line_without_its_end_is_answered_at_the_end(self):
        with self.open() as running:
            running.stdin.write(read(WORKED)[:-1])
            running.stdin.close()
            self.assertEqual((running.stdout.read(), running.wait(LONGEST)), (WORKED_OUTPUT, 0))

    def test_bytes_that_come_one_by_one(self):
        with self.open() as running:
            for byte in read(WORKED):
                running.stdin.write(bytes([byte]))
            running.stdin.close()
            self.assertEqual((running.stdout.read(), running.wait(LONGEST)), (WORKED_OUTPUT, 0))

    def test_a_refused_layout_ends_it_though_the_pipe_is_open(self):
        with self.open() as running:
            running.stdin.write(read(WORKED).splitlines(True)[2])
            self.assertEqual(running.wait(LONGEST), 0)
            self.assertEqual(running.stdout.read(), b"0B" + 28 * b"0" + b"\n")

    def test_more_answers_than_fit_at_once(self):
        lines, answers = read(WORKED).splitlines(True), WORKED_OUTPUT.splitlines(True)
        with Room() as room:
            log = room.place("long.log")
            with open(log, "wb") as file:
                file.write(b"".join(lines) + 5000 * lines[-1])
            self.assertEqual(self.replay(log), WORKED_OUTPUT + 5000 * b"".join(answers[-2:]))

    def test_vectors(self):
        for log in VECTORS:
            with self.subTest(log=log):
                self.assertEqual(self.replay(log), read(log[:-3] + ".out"))

    def test_examples(self):
        with Room() as room:
            room.build()
            for log in EXAMPLES:
                with self.subTest(log=log):
                    self.assertEqual(self.replay(log), room.run("replay", log).stdout)


class TranslatedTest(ProvedTest):
    """The same of the program in source/, compiled here."""

    COMMAND = (os.path.join(HOME, "replay"),)

    @classmethod
    def setUpClass(cls):
        cls.replay(WORKED)  # builds it


class StandInTest(unittest.TestCase):
    """The stand-in answers as the vectors say, so that what is told in the tests is what will be."""

    def test_vectors(self):
        with Room() as room:
            room.build()
            for log in VECTORS:
                with self.subTest(log=log):
                    self.assertEqual(room.run("replay", log).stdout, read(log[:-3] + ".out"))
