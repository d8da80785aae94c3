"""A table's words by their names (docs/MONITOR.md, 2): how many records there are, where each word stands, and what it is called.

Assumes nothing of the words: what lies beyond them reads as 0, and a size beyond the most is taken as none.
"""

from collections import namedtuple

from desk.log.layout import MOST_BUFFERS, MOST_PROCESSES, MOST_SEMAPHORES, plain_name

HEADER_WORDS, DEVICES, PROCESS_WORDS, BUFFER_WORDS, SEMAPHORE_WORDS = 72, 64, 16, 10, 4
MOST_WORDS = HEADER_WORDS + PROCESS_WORDS * MOST_PROCESSES + BUFFER_WORDS * MOST_BUFFERS + SEMAPHORE_WORDS * MOST_SEMAPHORES
PROCESSES, BUFFERS, RUNNING_FIRST, RUNNING_LAST, EDITION, SEMAPHORES, FIRST_ZERO, LAST_ZERO, FIRST_DEVICE = range(9)
NEXT, PREVIOUS = 0, 1
FIRST, LAST, STATE, REASON, DELAY, AWAITED, DEVICE, PRIORITY, FIRST_OWN, OWNS, NAME = range(2, 13)  # of a process
SEMAPHORE = 15
OWNER, RECEIVER, STANDING, AGE, MESSAGE = range(2, 7)  # of a buffer
COUNTER, WAITING_FIRST, WAITING_LAST, SEMAPHORE_ZERO = range(4)
KEPT = 0xFFFF

# What a word is called: a pattern with the number of its record.
HEADER_NAMES = ("the number of processes", "the number of buffers", "the first of the running queue", "the last of the running queue",
                "the edition", "the number of semaphores", "a header word without a use", "a header word without a use")
PROCESS_NAMES = ("{}'s next in the running queue", "{}'s previous in the running queue", "the first of {}'s event queue",
                 "the last of {}'s event queue", "{}'s state", "{}'s reason", "{}'s delay", "the buffer whose answer {} waits for",
                 "the device that {} waits for, plus 1", "{}'s priority", "{}'s first own buffer", "how many buffers {} owns",
                 "the first word of {}'s name", "the second word of {}'s name", "the third word of {}'s name", "the semaphore that {} waits for")
AT_SEMAPHORE = ("{}'s next in the semaphore's queue", "{}'s previous in the semaphore's queue")
BUFFER_NAMES = ("{}'s next in its event queue", "{}'s previous in its event queue", "{}'s owner", "{}'s receiver", "{}'s standing", "{}'s age",
                "the first word of {}'s message", "the second word of {}'s message", "the third word of {}'s message",
                "the fourth word of {}'s message")
SEMAPHORE_NAMES = ("{}'s counter", "the first in {}'s queue", "the last in {}'s queue", "{}'s word without a use")

# Where a word stands: the sort of its record, that record's number, and which word of it.
Where = namedtuple("Where", "sort number word")
HEADER_SORT, DEVICE_SORT, PROCESS_SORT, BUFFER_SORT, SEMAPHORE_SORT, BEYOND = "header", "device", "process", "buffer", "semaphore", "beyond"


def processes_told(table):
    """How many processes there are."""
    return "1 process" if table.processes == 1 else f"{table.processes} processes"


class Table:
    """The words of a dump."""

    def __init__(self, words):
        self.words = list(words)
        counts = self.word(PROCESSES), self.word(BUFFERS), self.word(SEMAPHORES)
        self.processes, self.buffers, self.semaphores = counts
        fits = 1 <= counts[0] <= MOST_PROCESSES and counts[1] <= MOST_BUFFERS and counts[2] <= MOST_SEMAPHORES
        self.used = self.semaphore_place(counts[2] + 1, 0) if fits else None
        self.is_whole = fits and len(self.words) >= self.used  # it has the size that it tells

    def word(self, place):
        """A word; 0 beyond the last."""
        return self.words[place] if place < len(self.words) else 0

    # ---- places

    def process_place(self, p, word):
        return HEADER_WORDS + PROCESS_WORDS * (p - 1) + word

    def buffer_place(self, b, word):
        return HEADER_WORDS + PROCESS_WORDS * self.processes + BUFFER_WORDS * (b - 1) + word

    def semaphore_place(self, s, word):
        return HEADER_WORDS + PROCESS_WORDS * self.processes + BUFFER_WORDS * self.buffers + SEMAPHORE_WORDS * (s - 1) + word

    def process(self, p, word):
        return self.word(self.process_place(p, word))

    def buffer(self, b, word):
        return self.word(self.buffer_place(b, word))

    def semaphore(self, s, word):
        return self.word(self.semaphore_place(s, word))

    def device(self, d):
        return self.word(FIRST_DEVICE + d)

    # ---- names

    def process_name(self, p):
        """A process's name where it is plain, or its number."""
        plain = plain_name(tuple(self.process(p, NAME + i) for i in range(3))) if 1 <= p <= self.processes else None
        return plain or f"process {p}"

    def where(self, place):
        """Where a word stands."""
        if place < FIRST_DEVICE:
            return Where(HEADER_SORT, 0, place)
        if place < HEADER_WORDS:
            return Where(DEVICE_SORT, place - FIRST_DEVICE, 0)
        left = place - HEADER_WORDS
        for sort, count, size in ((PROCESS_SORT, self.processes, PROCESS_WORDS), (BUFFER_SORT, self.buffers, BUFFER_WORDS),
                                  (SEMAPHORE_SORT, self.semaphores, SEMAPHORE_WORDS)):
            if left < count * size:
                return Where(sort, left // size + 1, left % size)
            left -= count * size
        return Where(BEYOND, 0, left)

    def named(self, place):
        """What a word is called."""
        sort, number, word = self.where(place)
        if sort == HEADER_SORT:
            return HEADER_NAMES[word]
        if sort == DEVICE_SORT:
            return f"device {number}'s word"
        if sort == BEYOND:
            return "a word beyond the table"
        names = {PROCESS_SORT: PROCESS_NAMES, BUFFER_SORT: BUFFER_NAMES, SEMAPHORE_SORT: SEMAPHORE_NAMES}[sort]
        if sort == PROCESS_SORT and word in (NEXT, PREVIOUS) and self.process(number, STATE) == 5:
            names = AT_SEMAPHORE
        return names[word].format(f"{sort} {number}")
