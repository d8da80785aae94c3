"""The lines of a log and of the replay's output: cut, read, and, where a line is no call, what is wrong with it.

A line of the log has 26 upper-case hexadecimal digits: call, a, b and four words. An answer has 30, a listing line 20.
"""

import re
from binascii import unhexlify
from collections import namedtuple
from struct import Struct

LAYOUT, SEND, WAIT_ANSWER, WAIT_EVENT, SEND_ANSWER, WAIT_INTERRUPT = range(6)
START, STOP, CLEAN, TICK, INTERRUPT, LIST, LOWER, RAISE = range(6, 14)
OF_CURRENT = (SEND, WAIT_ANSWER, WAIT_EVENT, SEND_ANSWER, WAIT_INTERRUPT, LOWER, RAISE)  # those that current makes

Call = namedtuple("Call", "number a b words")
Answer = namedtuple("Answer", "number kind buffer current words")
Row = namedtuple("Row", "buffer owner receiver standing age")

# One line of the log: its place from 1; its call, or the fault that makes it none; the answer and rows it was given, the
# lines of output that they are, how many lines behind it repeat its fault, of a station's own answers what is wrong with their
# number or shape, and of a line that is no call whether it looks like a layout line where one may stand.
Line = namedtuple("Line", "place call fault answer rows written repeats wrong spoilt", defaults=(None, (), (), 0, None, False))

# Which of a, b and the words each call from 01 to 0B leaves unused; they have to be zero.
UNUSED = {
    SEND: ("b",), WAIT_ANSWER: ("b", "words"), WAIT_EVENT: ("b", "words"), SEND_ANSWER: ("b",), WAIT_INTERRUPT: ("words",),
    START: ("b", "words"), STOP: ("b", "words"), CLEAN: ("b", "words"), TICK: ("a", "b", "words"),
    INTERRUPT: ("b", "words"), LIST: ("b", "words"),
}
ZEROS = (0, (0, 0, 0, 0))
PART_PLACES = {"a": "digits 3 to 6", "b": "digits 7 to 10", "words": "digits 11 to 26"}
DIGITS = b"0123456789ABCDEF"
LENGTH, ANSWER_DIGITS, ROW_DIGITS = 26, 30, 20
LONG, END = 60, 12  # a longer line is shown by its two ends, of so many characters
SAMPLE = 4096  # so many bytes of a line are looked at where it may be no text
WELL_SHAPED = re.compile(rb"[0-9A-F]{26}").fullmatch
CALL_PARTS, ANSWER_PARTS, ROW_PARTS = Struct(">B6H"), Struct(">B7H"), Struct(">5H")
MARK = b"> "  # before a station's own answer, in a log that carries them
RETURN_FAULT = "it ends in a carriage return (0D hex); a line ends in 0A alone"
BOM_FAULT = "it begins with a byte order mark (EF BB BF hex), which is no digit"
WIDE_FAULT = "its letters have two bytes each, one of them zero; a log has one"
BINARY_FAULT = "it has bytes in it that no text has"
ANSWER_FAULT = "it has the shape of an answer, and isn't marked with '> ' as one"
BOM, WIDE_BOMS = b"\xef\xbb\xbf", (b"\xff\xfe", b"\xfe\xff")
NO_TEXT = re.compile(rb"[\x00-\x08\x0e-\x1a\x1c-\x1f]").search


class OutputEnds(Exception):
    """The replay's output has no further line where the log calls for one, or one of another shape."""


def cut(data):
    """The lines of some bytes: only 0A ends a line, and the last may lack it."""
    pieces = data.split(b"\n")
    return pieces[:-1] if pieces[-1] == b"" else pieces


def is_digits(raw, count):
    """Whether a line is so many digits."""
    return len(raw) == count and all(byte in DIGITS for byte in raw)


def read_call(raw):
    """The call that a line of 26 good digits spells."""
    number, a, b, *words = CALL_PARTS.unpack(unhexlify(raw))
    return Call(number, a, b, tuple(words))


def shape_fault(raw):
    """What keeps a line from being 26 digits, or None."""
    if WELL_SHAPED(raw):
        return None
    if raw == b"":
        return "the line is empty"
    spoilt = whole_fault(raw)
    if spoilt:
        return spoilt
    if b" " in raw or b"\t" in raw:
        return "it has blanks in it; the digits stand without"
    if len(raw) != LENGTH:
        return length_fault(len(raw)) + ends_of(raw)
    place, byte = next((place, byte) for place, byte in enumerate(raw, 1) if byte not in DIGITS)
    if byte in b"abcdef":
        return f"character {place} is a lower-case '{chr(byte)}'; digits are upper case"
    shown = f"'{chr(byte)}'" if 0x21 <= byte <= 0x7E else f"the byte {byte:02X} hex"
    return f"character {place} is {shown}, which is no digit"


def length_fault(size):
    """That a line of so many characters has another number than a call."""
    return f"it is too {'short' if size < LENGTH else 'long'}: {size} character{'' if size == 1 else 's'} where 26 are due"


def ends_of(raw):
    """A long line by its two ends; nothing of a short one."""
    return f", from '{plain(raw[:END])}' to '{plain(raw[-END:])}'" if len(raw) > LONG else ""


def plain(raw):
    """Some bytes as they can be printed between quotes."""
    return "".join(chr(byte) if 0x20 <= byte <= 0x7E and byte != 0x27 else "?" for byte in raw)


def whole_fault(raw):
    """A fault that seldom comes alone, since it spoils a log whole; or None."""
    if raw.startswith(BOM):
        return BOM_FAULT
    if raw.startswith(WIDE_BOMS) or is_wide(raw[:LENGTH]):
        return WIDE_FAULT
    if raw.endswith(b"\r"):
        return RETURN_FAULT
    if len(raw) != LENGTH and NO_TEXT(raw[:SAMPLE]):
        return BINARY_FAULT
    return ANSWER_FAULT if raw == b"FF" or is_digits(raw, ANSWER_DIGITS) or is_digits(raw, ROW_DIGITS) else None


def is_wide(raw):
    """Whether every second byte is zero and no other is."""
    halves = [any(raw[0::2]), any(raw[1::2])]
    return len(raw) > 2 and halves in ([True, False], [False, True]) and raw.count(0) <= len(raw) // 2 + 1


def looks_laid(raw):
    """Whether a line that is none looks like a layout line: one with a mark before it, blanks, small letters or a digit too few or too
    many in it."""
    bare = raw[len(BOM):] if raw.startswith(BOM) else raw
    bare = bare.translate(None, b" \t\r").upper()
    return bare.startswith(b"00") and abs(len(bare) - LENGTH) <= 2 and all(byte in DIGITS for byte in bare)


def part_fault(call, laid):
    """What is wrong with a line of 26 digits as a call, or None. After layout no layout line may come."""
    if call.number == LAYOUT:
        if laid:
            return "it is a layout line, and the layout is done"
        return f"its last four digits are {call.words[3]:04X}; a layout line ends in 0000" if call.words[3] else None
    for part in UNUSED.get(call.number, ()):
        if getattr(call, part) not in ZEROS:
            return f"{PART_PLACES[part]} have to be zeros in call {call.number:02X}, which doesn't use them"
    return None


def read_line(place, raw, laid):
    """A line of the log, not yet answered."""
    fault = shape_fault(raw)
    call = None if fault else read_call(raw)
    fault = fault or part_fault(call, laid)
    if fault:
        return Line(place, None, fault, spoilt=not laid and looks_laid(raw))
    return Line(place, call, None)


def next_output(output, length):
    """The next line of the output, which has to have so many digits."""
    raw = next(output, b"")
    if len(raw) != length:
        raise OutputEnds
    return raw


def answer_of(raw):
    """The answer that a line of 30 digits spells."""
    number, kind, buffer, current, *words = ANSWER_PARTS.unpack(unhexlify(raw))
    return Answer(number, kind, buffer, current, tuple(words))


def row_of(raw):
    """The line of a listing that 20 digits spell."""
    return Row(*ROW_PARTS.unpack(unhexlify(raw)))


def answered(line, output):
    """A line of the log with what the replay wrote for it."""
    place, call, fault = line[:3]
    if fault:
        return line._replace(written=(next_output(output, 2),))
    first = next_output(output, ANSWER_DIGITS)
    try:
        answer = answer_of(first)
        if call.number != LIST or answer.number:
            return Line(place, call, None, answer, (), (first,))
        rows = [next_output(output, ROW_DIGITS) for _ in range(answer.kind)]
        return Line(place, call, None, answer, [row_of(raw) for raw in rows], (first, *rows))
    except ValueError as error:  # of lines that are no digits
        raise OutputEnds from error


def follow(log, output):
    """Each line of a log, of which all bytes are there, with its answer."""
    return follow_lines(enumerate(cut(log), 1), cut(output))


def follow_lines(log, output):
    """Each line of the log, which comes with its place, and its answer, in order; after a refused layout nothing follows.

    The layout lines, which have no answers, come once the line behind them is answered. An answer to the layout itself,
    which only a refused one gets, comes as a line without a call and without a fault: its place is that of the line that
    brought the layout about, or None at the end of the log.
    """
    output = iter(output)
    laid, layout = False, []
    for place, raw in log:
        line = read_line(place, raw, laid)
        if line.call and line.call.number == LAYOUT:
            layout.append(line)
            continue
        try:
            line = answered(line, output)
        except OutputEnds:
            yield from layout
            raise
        if not laid:
            yield from layout
            layout, laid = [], line.call is not None
            if laid and line.answer.number == 11:
                yield Line(place, None, None, line.answer, (), line.written)
                return
        yield line
    if not laid:
        yield from laid_at_end(layout, output)


def laid_at_end(layout, output):
    """The last layout lines of a log without calls, and the refusal of its layout if there is one."""
    raw = next(output, None)
    yield from layout
    if raw is not None:
        raw = next_output(iter([raw]), ANSWER_DIGITS)
        yield Line(None, None, None, answer_of(raw), (), (raw,))
