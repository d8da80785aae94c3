"""Scripts and logs drawn at random: every form of the language, right and wrong operands, names of every kind."""

import random

from desk.console.calling import entry_line, raw_call
from desk.console.tokens import quoted

NAMES = ("READ", "SPELL", "SHOW", "PRINT", "A", "read", "Z9", "a-b", "tick", "send", "wait", "X.Y", "AB~")
ODD_NAMES = (b"12", b"", b"a b", b"\0", b"#x", b'"', b"a:b", b"\xff\xfe", b"SIXSIX", b"\\", b"\xc3\x9c", b"007")
TEXTS = ("page 7", "ok", "", "#7", 'a"b', "a\\b", " ", "12345678", "\u00fc")
NUMBERS = (0, 1, 2, 3, 5, 63, 64, 255, 256, 32767, 65535)


class Drawing:
    """One draw: what is drawn depends on the seed alone."""

    def __init__(self, seed):
        self.random = random.Random(seed)
        self.one = self.random.choice

    def number(self):
        return self.one(NUMBERS)

    def word(self):
        return f"{self.random.randrange(65536):04{self.one('xX')}}"

    def cased(self, word):
        return self.one((word, word.upper(), word.title()))

    def name(self):
        return self.one(NAMES) if self.random.random() < 0.8 else quoted(self.one(ODD_NAMES))

    def message(self):
        kind = self.random.randrange(4)
        if kind == 0:
            return ""
        if kind == 1:
            return " " + quoted(self.one(TEXTS).encode())
        return "".join(" " + self.word() for _ in range(self.random.randint(1, 4)))

    def process(self, names):
        """A process by number, or by one of the names."""
        named = self.random.random() < 0.6
        return self.one(names) if names and named else str(self.one((0, 1, 2, 3, 99, 65535)))

    def call(self, names):
        """A line of words that gives a line of the log or several."""
        said, number, process = self.cased, self.number(), self.process(names)
        after = self.one(("", f" {self.number()}"))
        return self.one((
            f"{said('send')} {process}{self.message()}", f"{said('answer')} {number}{self.message()}",
            f"{said('wait')} {said('answer')} {number}", f"{said('wait')} {said('event')}{after}",
            f"{said('wait')} {said('interrupt')} {number}{after}", f"{said('interrupt')} {number}",
            *(f"{said(verb)} {process}" for verb in ("start", "stop", "clean", "list")),
            f"{said('lower')} {number}", f"{said('raise')} {number}", self.one(("tick", "tick 1", "Tick 3")),
            f"call {self.random.randrange(256):02X}{''.join(' ' + self.word() for _ in range(self.random.randint(0, 6)))}",
            f"line {quoted(self.bytes_of_line())}", "> 000000000000010000000000000000",
        )) + self.one(("", "", "  # a remark", "\t", "\r"))

    def station(self):
        """A script of a station that works: proper layout, calls of records that are there mostly."""
        count = self.random.randint(1, 4)
        head = [*self.one(((), ("edition 1",))), *(f"semaphore {self.random.randrange(3)}" for _ in range(self.random.randrange(3)))]
        head += [f"process P{p} priority {self.random.randint(1, 3)} buffers {self.random.randrange(4)}" for p in range(1, count + 1)]
        head += [f"start P{p}" for p in range(1, count + 1)]
        small = lambda: self.random.randint(1, 5)
        process = lambda: f"P{self.random.randint(1, count)}"
        for _ in range(40):
            head.append(self.one((
                f"send {process()}{self.message()}", f"send {process()}", f"wait answer {small()}", "wait event", f"wait event {small()}", "wait event",
                f"answer {small()}{self.message()}", f"answer {small()}", f"wait interrupt {small()}", f"wait interrupt {small()} {small()}",
                f"interrupt {small()}", f"interrupt {small()}", f"start {process()}", f"start {process()}", f"stop {process()}", f"clean {process()}",
                "tick", "tick 2", f"list {process()}", f"lower {self.random.randint(1, 2)}", f"raise {self.random.randint(1, 2)}")))
        return head

    def bytes_of_line(self):
        """A line that is mostly no call."""
        some = bytes(self.random.randrange(256) for _ in range(self.random.randrange(30)))
        return self.one((some, b"", b"06 0001", b"0b000100000000000000000000", b"> FF", b">", raw_call(6, 1) + b"\r")).replace(b"\n", b"")

    def script(self):
        """A whole script; names that are in it twice, or are no words, are said by number only."""
        laid = [self.name() for _ in range(self.random.randint(0, 5))]
        head = [f"{self.cased('process')} {name} priority {self.number()}{self.one(('', f' buffers {self.number()}'))}" for name in laid]
        names = [name for name in laid if laid.count(name) == 1 and not name.startswith('"')]
        calls = [self.call(names) for _ in range(self.random.randint(0, 12))]
        late = ["process LATE priority 1"] if self.random.random() < 0.1 else []
        return "\n".join([*head, *calls, *late]) + self.one(("", "\n", "\n\n# the end\n"))

    def log(self):
        """The bytes of a log: layout lines, calls, lines that are none, answers, a torn end."""
        raws = [entry_line(self.one((*ODD_NAMES, *(name.encode() for name in NAMES))), self.number(), self.number())
                for _ in range(self.random.randint(0, 5))]
        for _ in range(self.random.randint(0, 15)):
            words = tuple(self.one((0, 0, 0x7061, self.random.randrange(65536))) for _ in range(4))
            plain = raw_call(self.random.randrange(16), self.number(), self.one((0, 0, self.number())), self.one((words, (0, 0, 0, 0))))
            raws.append(self.one((plain, plain, plain, self.bytes_of_line(), b"> 000000000000010000000000000000", b"> \xff")))
        data = b"".join(raw + b"\n" for raw in raws)
        return data[:-1] if raws and raws[-1] and self.random.random() < 0.2 else data
