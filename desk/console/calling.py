"""Words to digits: the lines of a log that a statement comes to."""

from desk.console.reading import ANSWERED
from desk.log import lines
from desk.log.lines import MARK

NO_WORDS = (0, 0, 0, 0)

# For each form that makes calls: the call's number.
CALLS = {
    "send": lines.SEND, "wait answer": lines.WAIT_ANSWER, "wait event": lines.WAIT_EVENT, "answer": lines.SEND_ANSWER,
    "wait interrupt": lines.WAIT_INTERRUPT, "start": lines.START, "stop": lines.STOP, "clean": lines.CLEAN,
    "interrupt": lines.INTERRUPT, "list": lines.LIST, "lower": lines.LOWER, "raise": lines.RAISE,
}
OF_PROCESS = ("send", "start", "stop", "clean", "list")  # whose first operand is a process
WITH_MESSAGE = ("send", "answer")
SETTINGS = ("edition", "semaphore")  # what a log has no line for
GIVES_LINES = frozenset(CALLS) | {"process", "tick", "call", "line", ANSWERED}


def raw_call(number, a=0, b=0, words=NO_WORDS):
    """A line of 26 digits."""
    return b"%02X%04X%04X" % (number, a, b) + b"".join(b"%04X" % word for word in words)


def entry_line(name, priority, count):
    """The layout line of a process."""
    filled = name.ljust(6, b"\0")
    words = tuple(int.from_bytes(filled[i:i + 2], "big") for i in (0, 2, 4))
    return raw_call(lines.LAYOUT, priority, count or 0, (*words, 0))


def call_line(statement, names):
    """The line of one of the calls by name."""
    first, second = (*statement.values, None)[:2]
    a = names.number_of(first) if statement.name in OF_PROCESS else first or 0
    if statement.name in WITH_MESSAGE:
        return raw_call(CALLS[statement.name], a, 0, second or NO_WORDS)
    return raw_call(CALLS[statement.name], a, second or 0)


def lines_of(statement, names):
    """The lines of a statement that gives any, without their ends; raises a Mistake where a process isn't there."""
    name, values = statement.name, statement.values
    if name == "process":
        return [entry_line(*values)]
    if name == "tick":
        return [raw_call(lines.TICK)] * (values[0] or 1)
    if name == "call":
        a, b, *words = values[1] or (0,) * 6
        return [raw_call(values[0], a, b, words)]
    if name == "line":
        return [values[0]]
    if name == ANSWERED:
        return [MARK + values[0]]
    return [call_line(statement, names)]
