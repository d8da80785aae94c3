"""The proved monitor at the desk's service: a program that keeps one table and answers requests (desk/served/serve.c)."""

import subprocess

from desk.log import lines
from desk.log.layout import MOST_PROCESSES, MOST_SEMAPHORES
from desk.log.native import build, place_of
from desk.log.standard import CannotGoOn

PROGRAM = place_of("serve")
ANSWER_WORDS, ROW_WORDS = 8, 5
MOST_WORDS = 1928  # of a table
BROKEN = "the program that serves the calls broke off."


class Monitor:
    """The program, started at the first request. Control-C at the keyboard isn't for it; with its input it ends."""

    def __init__(self, command="console"):
        self.command, self.run = command, None  # whose words it is if nothing can be built

    def start(self):
        """Builds the program where that is needed, and starts it; what can't be built was told."""
        try:
            build("serve", self.command)
            self.run = subprocess.Popen([PROGRAM], stdin=subprocess.PIPE, stdout=subprocess.PIPE, start_new_session=True)
        except OSError as error:
            raise CannotGoOn(f"the program that serves the calls can't be started: {error.strerror}.") from error

    def close(self):
        """Ends the program."""
        if self.run:
            self.run.stdin.close()
            self.run.stdout.close()
            self.run.wait()
            self.run = None

    def ask(self, letter, *words):
        """The words that a request is answered with."""
        if self.run is None:
            self.start()
        try:
            self.run.stdin.write(" ".join([letter, *(f"{word:04X}" for word in words)]).encode() + b"\n")
            self.run.stdin.flush()
            answer = self.run.stdout.readline()
        except OSError as error:
            raise CannotGoOn(BROKEN) from error
        if not answer.endswith(b"\n"):
            raise CannotGoOn(BROKEN)
        return [int(word, 16) for word in answer.split()]

    def lay_out(self, entries, edition, counters):
        """Lays a station out; gives the number of the answer. One process or counter too many is as bad as more."""
        listed = [word for entry in entries[:MOST_PROCESSES + 1] for word in (entry.priority, entry.buffers, *entry.name)]
        begin = counters[:MOST_SEMAPHORES + 1]
        return self.ask("L", edition, len(begin), *begin, *listed)[0]

    def call(self, call):
        """Does a call; gives the lines of output that the replay writes for one."""
        answer = self.ask("C", call.number, call.a, call.b, *call.words)
        number, rows = answer[0], answer[ANSWER_WORDS:]
        first = b"%02X" % number + b"".join(b"%04X" % word for word in answer[1:ANSWER_WORDS])
        return [first, *(b"".join(b"%04X" % word for word in rows[i:i + ROW_WORDS]) for i in range(0, len(rows), ROW_WORDS))]

    def stuck(self, process):
        """Number, whether there is a ring, and the processes from this one on."""
        number, _, ring, *listed = self.ask("K", process)
        return number, bool(ring), listed

    def rings(self):
        """The rings, each a list of processes."""
        rings, ring = [], []
        for process in self.ask("R")[3:]:
            if process:
                ring.append(process)
            else:
                rings.append(ring)
                ring = []
        return rings

    def screen(self):
        """For each process in order its queue's length and how many conversations it has open as sender."""
        records = self.ask("S")[1:]
        return [tuple(records[i + 2:i + 4]) for i in range(0, len(records), 4)]

    def words(self):
        """The table's words."""
        return self.ask("W")

    def take(self, words):
        """The table's words are these from now on, sound or not; what lies beyond the longest table is left out."""
        self.ask("T", *words[:MOST_WORDS])

    def why(self):
        """Why the table isn't sound: clause, record and place, all 0 where it is."""
        return tuple(self.ask("F"))


NO_CALL = (b"FF",)
REFUSED_LAYOUT = b"%02X" % 11 + b"0" * (lines.ANSWER_DIGITS - 2)
