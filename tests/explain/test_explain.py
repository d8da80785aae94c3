"""What ./explain tells: over all vectors and examples, every refusal, every fault of a line, and the picture."""

import os
import unittest
import xml.etree.ElementTree

from desk.explain.telling import Telling
from desk.explain.timeline import Timeline
from desk.log import lines, refusals
from desk.log.layout import entry_of
from desk.log.station import Station
from tests import stand_in
from tests.explain.room import EXAMPLES, HOME, VECTORS, Room, read

A, B = "00000500014100000000000000", "00000300004200000000000000"
START_A, START_B = "06000100000000000000000000", "06000200000000000000000000"
SEND, TICK, LIST_B = "010002" + "0" * 20, "09" + "0" * 24, "0B0002" + "0" * 20


def output_of(log):
    """The stand-in's answers to a log."""
    return "".join(line + "\n" for line in stand_in.replay(log)).encode()


def tell(log, output=None):
    """A log told, and the timeline of it."""
    timeline = Timeline()
    telling = Telling(timeline)
    return [telling.tell(line) for line in lines.follow(log, output or output_of(log))], timeline


def told(*log):
    """Some lines told, in one piece with single blanks."""
    return " ".join("\n".join(tell("\n".join(log).encode())[0]).split())


class WholeLogsTest(unittest.TestCase):
    """Vectors and examples."""

    def logs(self):
        for path in VECTORS:
            yield path, read(path), read(path[:-3] + ".out")
        for path in EXAMPLES:
            yield path, read(path), output_of(read(path))

    def test_every_line_is_told_in_80_columns(self):
        for path, log, output in self.logs():
            with self.subTest(log=path):
                rows, _ = tell(log, output)
                broken_off = rows and "refused with 11" in rows[-1]
                self.assertTrue(broken_off or len(rows) == len(lines.cut(log)))
                self.assertLessEqual(max(len(piece) for row in rows for piece in row.split("\n")), 80)

    def test_80_columns_with_long_names(self):
        entries = [f"0000010004{name.encode().hex().upper():0<12}0000" for name in ("WWWWA", "WWWWB", "WWWWC")]
        log = "\n".join(entries + [f"06000{p}{'0' * 20}" for p in (1, 2, 3)] + [f"010002{'0' * 4}{'FFFF' * 4}"] * 5)
        rows, _ = tell(log.encode())
        self.assertLessEqual(max(len(piece) for row in rows for piece in row.split("\n")), 80)

    def test_the_reading_agrees_with_the_answers(self):
        for path, log, output in self.logs():
            entries, station = [], None
            for line in lines.follow(log, output):
                if line.call and line.call.number == lines.LAYOUT:
                    entries.append(entry_of(line))
                elif line.call:
                    station = station or Station(entries)
                    self.hold(path, line, station.take(line.call, line.answer), station)

    def hold(self, path, line, change, station):
        """Kinds and listings, ages with them, are what the reading alone would give."""
        with self.subTest(log=path, line=line.place):
            call, answer = line.call, line.answer
            if answer.number == 0 and call.number == lines.TICK:
                self.assertEqual(answer.kind, len(change.woken))
            if answer.number == 0 and call.number == lines.CLEAN:
                self.assertEqual(answer.kind, len(change.moved))
            if answer.number == 0 and call.number == lines.LIST:
                shown = [(b, buffer.owner, buffer.receiver, buffer.standing, station.age(buffer))
                         for b, buffer in station.open_buffers() if call.a in (buffer.owner, buffer.receiver)]
                self.assertEqual([tuple(row) for row in line.rows], shown)


class SentencesTest(unittest.TestCase):
    """The words for what can go wrong."""

    def test_every_refusal_has_a_meaning(self):
        self.assertEqual(set(refusals.MEANINGS), {*range(1, 14), 19, 20})

    def test_refusals(self):
        send, wait = "01{:04X}0000" + "1" * 16, "02{:04X}" + "0" * 20
        answer, device = "04{:04X}" + "0" * 20, "05{:04X}" + "0" * 20
        laid, started = (A, B), (A, B, START_A, START_B)
        cases = [
            (laid, send.format(2), "refused with 2, no process runs that could make the call"),
            (started, device.format(64), "refused with 3, there is no such device (devices are 0 to 63)"),
            (started, "06" + "0" * 24, "Start #0: refused with 4, there is no such process (processes are 1 to 2)"),
            ((*started, send.format(2)), send.format(2), "refused with 5, the sender has no free buffer (A has 1 buffer"),
            ((B, A, START_A), send.format(2), "refused with 5, the sender has no free buffer (B has no buffers)"),
            (started, wait.format(2), "refused with 6, the caller may neither wait for that buffer nor answer it (buffers are 1"),
            (started, wait.format(1), "(buffer 1 is free, so no answer will come)"),
            ((B, A, START_A), wait.format(1), "(buffer 1 belongs to A)"),
            (started, answer.format(1), "(buffer 1 is free)"),
            ((*started, send.format(2)), answer.format(1), "(buffer 1 was sent to B)"),
            ((*started, send.format(2), wait.format(1)), answer.format(1), "(buffer 1 is queued, and an answer wants held"),
            ((B, START_A), wait.format(1), "(there are no buffers)"),
            (started, START_A, "refused with 7, the process's state doesn't allow it (A is in the running"),
            (laid, "07" + START_A[2:], "(A is stopped)"),
            (started, send.format(1), "refused with 8, a process can't send to itself"),
            ((*started, device.format(5)), device.format(5), "refused with 9, another process waits for the device (A"),
            (started, "FF" + "1" * 24, "Call FF: refused with 13 (0D in the replay), there is no such call"),
            (started, "0E" + "0" * 24, "Call 0E: refused with 13 (0D in the replay), there is no such call (calls are 01 to 0D)"),
            (laid, "0C0001" + "0" * 20, "Lower semaphore 1: refused with 2, no process runs that could make the call"),
            (started, "0C0001" + "0" * 20, "Lower semaphore 1: refused with 19 (13 in the replay), there is no such semaphore (there are none)"),
            (started, "0D0010" + "1" * 20, "Raise semaphore 16: refused with 19 (13 in the replay), there is no such semaphore (there are none)"),
        ]
        for before, line, sentence in cases:
            with self.subTest(sentence=sentence):
                self.assertIn(sentence, told(*before, line))

    def test_an_interrupt_goes_in_front(self):
        equal = B[:2] + "0005" + B[6:]
        log = (A, equal, START_A, START_B, "0500070000" + "0" * 16, "0A0007" + "0" * 20)
        self.assertIn("Interrupt from device 7: A wakes, in front of its equals. A runs now.", told(*log))

    def test_a_tick_gives_the_slice(self):
        equal = B[:2] + "0005" + B[6:]
        self.assertIn("nobody wakes, A gives the slice to B. B runs now.", told(A, equal, START_A, START_B, TICK))
        self.assertIn("nobody wakes. A runs on.", told(A, B, START_A, START_B, TICK))

    def test_how_long_a_conversation_has_stood(self):
        wait, answer = "02{:04X}" + "0" * 20, "040001" + "0" * 20
        sent = (A, B, START_A, START_B, TICK, SEND)
        held = (*sent, TICK, wait.format(1), "03" + "0" * 24, TICK)
        for log, pieces in (
                ((*sent, LIST_B), ("Open: 1 A>B queued. Listed: buffer 1 of A, sent to B, queued.",)),
                ((*sent, TICK, LIST_B), ("Open: 1 A>B queued (1 tick). Listed: buffer 1 of A, sent to B 1 tick ago, queued.",)),
                ((*held, LIST_B), ("Open: 1 A>B held (2 ticks). Listed: buffer 1 of A, sent to B 2 ticks ago, held.",)),
                ((*held, answer, TICK, LIST_B), ("sent to B 3 ticks ago, answered.",)),
                ((*held, "080001" + "0" * 20, TICK, LIST_B), ("sent to B 3 ticks ago, orphaned.",)),
                ((*held, answer, TICK, wait.format(1), TICK, SEND, TICK), ("Nothing open.", "Open: 1 A>B queued (1 tick)."))):
            said = told(*log)
            for piece in pieces:
                with self.subTest(calls=len(log), piece=piece):
                    self.assertIn(piece, said)

    def test_the_oldest_age(self):
        log = "\n".join([A, B, START_A, SEND] + [TICK] * 65534 + [LIST_B] + [TICK] * 2 + [LIST_B]).encode()
        telling, said = Telling(), []
        for line in lines.follow(log, output_of(log)):
            if line.call.number == lines.TICK:
                telling.station.take(line.call, line.answer)
            else:
                said.append(" ".join(telling.tell(line).split()))
        self.assertIn("Open: 1 A>B queued (65534 ticks). Listed: buffer 1 of A, sent to B 65534 ticks ago, queued.", said[-2])
        self.assertIn("(65535 ticks or more). Listed: buffer 1 of A, sent to B 65535 ticks or more ago, queued.", said[-1])

    def test_lines_that_are_no_calls(self):
        cases = [
            ("", "the line is empty"), ("0" * 25, "it is too short: 25 characters"), ("0" * 27, "it is too long: 27 characters"),
            (START_A + "\r", "it ends in a carriage return"), ("06 0001", "it has blanks in it"),
            ("0b" + "0" * 24, "character 2 is a lower-case 'b'"), ("G" + "0" * 25, "character 1 is 'G', which is no digit"),
            ("0" * 25 + "\x01", "character 26 is the byte 01 hex"), (A, "it is a layout line, and the layout is done"),
            (START_A[:-1] + "1", "digits 11 to 26 have to be zeros in call 06"), ("09" + "1" * 24, "digits 3 to 6 have to be zeros"),
            ("02000100010000000000000000", "digits 7 to 10 have to be zeros in call 02"),
        ]
        for line, sentence in cases:
            with self.subTest(sentence=sentence):
                self.assertIn(f"No call (FF): {sentence}", told(A, B, START_A, line, START_B))
        self.assertIn("its last four digits are 0001; a layout line ends in 0000", told(A[:-1] + "1", A, START_A))

    def test_refused_layouts(self):
        cases = [
            ([], "There is no layout line."), ([A] * 33, "There are 33 processes, and 32 are the most."),
            ([A, A], "Process 2, A (line 2): process 1 has the same name."),
            ([A[:6] + "0081" + A[10:]], "The processes have 129 buffers together, and 128 are the most."),
            (["000000" + A[6:]], "Process 1, A (line 1): its priority is 0, and priorities go from 1 to 255."),
            ([A[:10] + "0" * 16], "Process 1 (line 1): its name is empty."),
            ([A[:10] + "00410000000000" + "00"], "its name begins with a zero byte"),
            ([A[:10] + "41004100" + "0" * 8], "its name has a zero byte inside"),
            ([A[:10] + "414141414141" + "0000"], "its name has six letters where five are the most"),
        ]
        for entries, sentence in cases:
            with self.subTest(sentence=sentence):
                self.assertIn(sentence, told(*entries, START_A))
                self.assertIn("end The layout is refused with 11 (0B in the replay)", told(*entries))


class CommandTest(unittest.TestCase):
    """The command itself."""

    def test_worked_run_and_picture(self):
        with Room() as room:
            room.build()
            log, picture = os.path.join(HOME, "examples", "worked.log"), room.place("run.svg")
            run = room.run("explain", log, "--picture", picture)
            self.assertEqual((run.returncode, run.stderr), (0, b""))
            self.assertIn(b"    6  A       Wait for the answer to buffer 1: A waits. B runs now. Open:", run.stdout)
            xml.etree.ElementTree.parse(picture)
            self.assertEqual(room.run("explain", log=read(log)).stdout, run.stdout)

    def test_bad_words(self):
        with Room() as room:
            room.build()
            for words, sentence in ((["nowhere.log"], b"No such file"), ([room.folder], b"is a folder"), (["a", "b"], b"--help"),
                                    ([EXAMPLES[0], "--picture", room.folder], b"can't be written")):
                run = room.run("explain", *words)
                self.assertEqual((run.returncode, run.stderr.count(b"\n")), (2, 1), words)
                self.assertIn(sentence, run.stderr)

    def test_no_python_and_no_compiler(self):
        with Room() as room:
            run = room.run("explain", EXAMPLES[0], path=room.path_without("python3"))
            self.assertEqual((run.returncode, run.stdout), (2, b""))
            self.assertIn(b"the package 'python3'", run.stderr)
        with Room() as room:
            run = room.run("explain", EXAMPLES[0], path=room.path_without("cc"))
            self.assertEqual((run.returncode, run.stdout), (2, b""))
            self.assertIn(b"there is no C compiler 'cc'", run.stderr)

    def test_progress_of_a_long_log(self):
        log = "\n".join([A, B, START_A] + [TICK] * 20000).encode()
        with Room() as room:
            room.build()
            with open(room.place("long.log"), "wb") as file:
                file.write(log)
            said = room.run("explain", "--progress", room.place("long.log")).stderr.decode()
            self.assertRegex(said, r"^\rexplain: 10000 of 20003 lines, about \d+ s left *\rexplain: 20000 of 20003 lines, about 0 s left *\n$")
            self.assertRegex(room.run("explain", "--progress", log=log).stderr.decode(), r"^\rexplain: 10000 lines *\rexplain: 20000 lines *\n$")
            self.assertEqual(room.run("explain", log=log).stderr, b"")

    def test_answers_that_break_off(self):
        log = "\n".join([A, B, START_A, START_B]).encode()
        with self.assertRaises(lines.OutputEnds):
            tell(log, output_of(log)[:40])
