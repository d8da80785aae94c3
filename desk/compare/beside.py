"""Two lines that differ, beside each other as they stand and in words; and what runs on."""

from desk.log import lines
from desk.log.alone import Names, told_alone
from desk.log.cures import named
from desk.log.refusals import how_many
from desk.log.words import wrapped

SHOWN = 60       # so many characters of a line are shown
FIRST, LAST = 38, 18  # of a longer one so many of its beginning, and so many of its end
LOGS = ("first", "second")


def printable(line):
    """A line as it can be printed: a long one by its two ends."""
    if line.size <= SHOWN:
        return text_of(line.bytes)
    return f"{text_of(line.bytes[:FIRST])} .. {text_of(line.last[-LAST:])} ({line.size:,} bytes)"


def text_of(raw):
    """Some bytes as they can be printed."""
    return "".join(chr(byte) if 0x20 <= byte <= 0x7E else "?" for byte in raw)


def words_of(line, names):
    """A line in words; of one that isn't there whole, that it is too long."""
    if line.size > len(line.bytes):
        return f"No call: {lines.length_fault(line.size)}"
    return told_alone(line.bytes, names)


def marks(one, two):
    """A mark below each character in which two lines differ, as far as they are shown."""
    shown = SHOWN if max(one.size, two.size) <= SHOWN else FIRST
    pairs = [(one.bytes[i:i + 1], two.bytes[i:i + 1]) for i in range(min(shown, max(one.size, two.size)))]
    return "".join("^" if a != b else " " for a, b in pairs).rstrip()


def told(head, text):
    """Words behind a head, wrapped."""
    return wrapped(f"{text}.", head, " " * len(head))


def beside(line, names):
    """A line that both logs have, and that differs."""
    shown = [f"  {log:<6}  {printable(part)}" for log, part in zip(LOGS, line[1:])]
    mark = marks(line.one, line.two)
    words = [told(f"  {log:<6}  ", words_of(part, name)) for log, part, name in zip(LOGS, line[1:], names)]
    return "\n".join([f"Line {line.number}", *shown, *([f"{'':10}{mark}"] if mark else []), *words])


def alone(line, names):
    """A line that only one log has."""
    log = 0 if line.one else 1
    part = line[1 + log]
    words = told(" " * 10, words_of(part, names[log]))
    return f"Line {line.number}, which only the {LOGS[log]} log has\n  {LOGS[log]:<6}  {printable(part)}\n{words}"


def runs_on(rest):
    """What runs on, in a sentence, where anything does."""
    if rest is None or rest.size == 0:
        return None
    return (f"The {LOGS[rest.log - 1]} log runs on behind line {rest.before:,} with {how_many(rest.lines, 'line')} "
            f"({how_many(rest.size, 'byte')}, from its byte {rest.start:,} on)")


def is_odd(head):
    """Whether a log begins as none does."""
    return bool(head) and named(head[0], "./compare") is not None


def odd_told(log, first):
    """What a log is that begins oddly, and its cure."""
    return told("", f"Of the {log} log: {named(first, './compare OTHER')}")


class Beside:
    """A comparison told as its rows come."""

    def __init__(self, one, two):
        self.paths = (one, two)
        self.names, self.shown = None, 0

    def lines(self, rows):
        """The lines that differ, a text each."""
        for line in rows.differing():
            if self.names is None:
                self.names = [Names(rows.heads[log]) for log in (1, 2)]
                yield "\n".join(f"{log:<6}  {path}" for log, path in zip(LOGS, self.paths))
            self.shown += 1
            yield (beside if line.one and line.two else alone)(line, self.names)

    def summary(self, rows):
        """How many lines differ, what runs on, how many of them weren't shown, and what either log is that begins oddly."""
        if rows.code == 0:
            yield "The logs agree."
            return
        yield from (odd_told(log, rows.heads[number][0]) for number, log in enumerate(LOGS, 1) if is_odd(rows.heads[number]))
        rest = runs_on(rows.rest)
        behind = rows.rest.lines if rest else 0
        of_both = rows.total - behind
        if of_both:
            yield f"{how_many(of_both, 'line')} that both logs have {'differs' if of_both == 1 else 'differ'}."
        if rest:
            yield told("", rest)
        hidden = rows.total - self.shown
        if hidden:
            yield told("", f"Not shown: {how_many(hidden, 'line')} of these. --all shows all, --most N another number, "
                           "--numbers the line numbers alone")
