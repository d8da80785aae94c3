"""What the commands do where a standard stream is closed, full or no longer read, and at Control-C."""

import os
import pty
import signal
import subprocess
import unittest

from tests.explain.room import LONGEST, Room, has_ended, read, wait_until

LAID = b"00000500014100000000000000\n06000100000000000000000000\n"
TICK = b"09000000000000000000000000\n"
COMMANDS = ("explain", "replay")
NO_ROOM = "standard output can't be written: No space left on device."


class StreamsTest(unittest.TestCase):
    """With a program that, as the proved one, can't tell that its output found no room."""

    def setUp(self):
        self.room = Room().__enter__()
        self.addCleanup(self.room.__exit__)
        stand_in = self.room.stand_in.removeprefix("exec ")
        self.room.build(f"{stand_in} 2>/dev/null\nexit 0")
        with open(self.room.place("long.log"), "wb") as file:
            file.write(LAID + 20000 * TICK)

    def ends(self, line, sentence, told=b""):
        """The line ends with one sentence."""
        run = self.room.typed(line)
        self.assertEqual((run.returncode, run.stderr.decode(), run.stdout), (2, sentence + "\n", told), line)

    def test_a_full_disk(self):
        for command in COMMANDS:
            for words in ("examples/worked.log", "long.log", "--help"):
                self.ends(f"./{command} {words} >/dev/full", f"{command}: {NO_ROOM}")
                self.ends(f"PYTHONUNBUFFERED=1 ./{command} {words} >/dev/full", f"{command}: {NO_ROOM}")

    def test_a_full_disk_with_a_picture(self):
        self.ends("./explain --picture run.svg examples/worked.log >/dev/full", f"explain: {NO_ROOM}")
        self.assertFalse(os.path.exists(self.room.place("run.svg")))

    def test_closed_output(self):
        for words in ("examples/worked.log", "--help"):
            self.ends(f"./explain {words} >&-", "explain: standard output is closed, so there is nowhere to write.")
            self.ends(f"./replay {words} >&-", "replay: standard output is closed, so there is nowhere to write.")

    def test_closed_input(self):
        for command in COMMANDS:
            self.ends(f"./{command} <&-", f"{command}: standard input is closed, and no file is named.")
            run, wanted = (self.room.typed(f"./{command} examples/worked.log{how}") for how in (" <&-", ""))
            self.assertEqual((run.returncode, run.stdout, run.stderr), (0, wanted.stdout, b""))

    def test_input_that_is_no_file(self):
        for command in COMMANDS:
            self.ends(f"./{command} <examples", f"{command}: standard input is a folder, not a file.")
        self.ends("./explain 0>nothing", "explain: standard input can't be read: Bad file descriptor.")

    # A sentence that can't be said: nothing else is said, no file takes it, and the exit is the same.
    def test_errors_that_nobody_hears(self):
        for command in COMMANDS:
            for how in ("2>&-", "2>/dev/full"):
                run = self.room.typed(f"./{command} nowhere.log {how}")
                self.assertEqual((run.returncode, run.stdout, run.stderr), (2, b"", b""), (command, how))
                run, wanted = (self.room.typed(f"./{command} long.log {more}") for more in (how, ""))
                self.assertEqual((run.returncode, run.stdout), (0, wanted.stdout), (command, how))
        run = self.room.typed("./explain --progress --picture run.svg examples/worked.log 2>&-")
        self.assertEqual((run.returncode, read(self.room.place("run.svg"))[-7:]), (0, b"</svg>\n"))

    def test_nobody_reads_on(self):
        for command in COMMANDS:
            for words in ("long.log", "--help"):
                run = self.room.typed(f"{{ ./{command} {words}; echo $? >&2; }} | true")
                self.assertEqual((run.stdout, run.stderr), (b"", b"141\n"), (command, words))
            run = self.room.typed(f"./{command} long.log | head -n 1")
            self.assertEqual((run.stdout.count(b"\n"), run.stderr), (1, b""), command)

    def test_a_program_that_breaks_off(self):
        self.room.build("exit 3")
        self.ends("./replay long.log", "replay: the program broke off before its end (status 3).")

    def interrupted(self, process, *sentences):
        """Control-C ends the command, with these sentences."""
        os.killpg(process.pid, signal.SIGINT)
        output, said = process.communicate(timeout=LONGEST)
        self.assertEqual((process.returncode, output, said.decode().splitlines()), (2, b"", list(sentences)))

    def test_control_c_at_the_keyboard(self):
        keyboard, screen = pty.openpty()
        process = self.room.start("explain", stdin=screen)
        self.assertIn(b"reading lines from the keyboard", process.stderr.readline())
        self.interrupted(process, "explain: interrupted before the end.")
        os.close(keyboard)
        os.close(screen)

    def test_control_c_while_the_program_runs(self):
        self.room.build("echo $$ >started\nexec sleep 600")
        process = self.room.start("explain", "examples/worked.log")
        program = int(self.room.wait_for("started"))
        self.interrupted(process, "explain: interrupted before the end.")
        self.assertTrue(wait_until(lambda: has_ended(program)))


class BuildTest(unittest.TestCase):
    """A kit whose compiler, as those of the kit, is not ended by Control-C."""

    KIT = ("sleep 600 &\necho 'crate text: modules loaded=1 checked=1'\necho logic=proved\necho $! >../../compiler\n"
           "mkdir -p out\n>out/replay\nwait")

    def setUp(self):
        self.room = Room().__enter__()
        self.addCleanup(self.room.__exit__)

    def ended(self, words, how, *sentences, kit=(KIT, "rt")):
        """A build that is ended in some way: the compiler is too, and no program is left."""
        process = self.room.start(*words, "examples/worked.log", path=self.room.put_kit(*kit))
        compiler = int(self.room.wait_for("compiler"))
        self.assertFalse(has_ended(compiler))
        how(process.pid)
        output, said = process.communicate(timeout=LONGEST)
        self.assertTrue(wait_until(lambda: has_ended(compiler)))
        self.assertFalse(os.path.exists(self.room.program) or os.path.exists(self.room.proved))
        self.assertEqual((process.returncode, output), (2, b""))
        self.assertEqual([line for line in said.decode().splitlines() if "prove" not in line], list(sentences))
        os.unlink(self.room.place("compiler"))

    def test_control_c(self):
        sentence = "replay: interrupted in the middle of the build; nothing of it runs on."
        for end in (signal.SIGINT, signal.SIGTERM, signal.SIGHUP):
            self.ended(("replay", "--proved"), lambda group, end=end: os.killpg(group, end), sentence)
        self.ended(("replay", "--proved"), lambda process: os.kill(process, signal.SIGTERM), sentence)

    def test_control_c_while_it_is_compiled(self):
        for how in (os.killpg, os.kill):
            self.ended(("explain",), lambda process, how=how: how(process, signal.SIGINT), "replay: interrupted in the middle of the build.",
                       "explain: interrupted before the end.", kit=("echo $$ >compiler\nexec sleep 600", "cc"))

    def test_one_line_a_crate_while_it_is_built(self):
        kit = ("proved() { echo \"crate $1: modules loaded=1 checked=1\" && echo 'logic=proved functions=1'; }\n"
               "echo './proofs/A.antt:1:2: note: large'\necho 'fn text::cut: proved'\nproved text\n"
               "until [ -e ../../go ]; do sleep 0.1; done\nproved machine\n"
               f"mkdir -p out\nprintf '%s\\n' '#!/bin/sh' '{self.room.stand_in}' >out/replay\n"
               "chmod +x out/replay\nproved replay\necho 'a word' >&2")
        process = self.room.start("replay", "--proved", "examples/worked.log", path=self.room.put_kit(kit))
        said = [process.stderr.readline().decode() for _ in range(2)]
        self.assertEqual(said, ["replay: building the replay, once: 3 crates to prove, some minutes ...\n",
                                "replay: text is proved, 1 of 3\n"])
        subprocess.run(["touch", self.room.place("go")], check=True)
        output, rest = process.communicate(timeout=LONGEST)
        self.assertEqual(rest, b"replay: machine is proved, 2 of 3\nreplay: replay is proved, 3 of 3\n")
        self.assertEqual((process.returncode, output.count(b"\n")), (0, 8))
        notes = read(self.room.place("target", "replay-build.txt"))
        self.assertIn(b"A.antt:1:2: note: large\nfn text::cut: proved\n", notes)
        self.assertTrue(notes.endswith(b"logic=proved functions=1\na word\n"))

    def test_a_build_that_fails_names_its_notes(self):
        kit = ("echo './proofs/A.antt:1:2: error: no'\necho 'crate text: modules loaded=1 checked=1'\necho logic=not-proved\n"
               "echo 'rt: the library text did not build'\nexit 1")
        run = self.room.typed("./replay --proved examples/worked.log", path=self.room.put_kit(kit))
        notes = self.room.place("target", "replay-build.txt")
        self.assertEqual((run.returncode, run.stdout), (2, b""))
        self.assertEqual(run.stderr.decode().splitlines()[1:], [
            f"replay: the build did not succeed; all that the kit said is in '{notes}', and its last words are: rt: the library text did not build"])
        self.assertIn(b"A.antt:1:2: error: no\n", read(notes))

    def test_nowhere_to_build(self):
        with open(self.room.place("target"), "w", encoding="utf-8"):
            for words in ("", "--proved "):
                run = self.room.typed(f"./replay {words}examples/worked.log", path=self.room.put_kit("exit 0"))
                self.assertEqual((run.returncode, run.stdout, run.stderr.count(b"\n")), (2, b"", 1))
                self.assertIn(b"the replay is not built yet, and '", run.stderr)
