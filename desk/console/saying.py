"""Digits to words: what each line of a log is in the language. Read back it is the same line, to the byte."""

from desk.console.naming import Names, plain_word
from desk.console.tokens import quoted
from desk.log import lines
from desk.log.layout import entry_of, name_bytes
from desk.log.lines import MARK
from desk.log.words import FOUR_WORDS, IS_TEXT


def message(words):
    """Four words behind a call, a blank before them: as a text where they are that, nothing where they are zeros."""
    letters = FOUR_WORDS.pack(*words).rstrip(b"\0")
    if not letters:
        return ""
    return f" {quoted(letters)}" if IS_TEXT(letters) else " " + " ".join(f"{word:04X}" for word in words)


def delay(ticks):
    """A delay behind a wait, a blank before it; 0 is none."""
    return f" {ticks}" if ticks else ""


# What each call is in words; the call's a, where it is a process, comes as it is said.
SAID = {
    lines.SEND: lambda call, process: f"send {process}{message(call.words)}",
    lines.WAIT_ANSWER: lambda call, process: f"wait answer {call.a}",
    lines.WAIT_EVENT: lambda call, process: f"wait event{delay(call.a)}",
    lines.SEND_ANSWER: lambda call, process: f"answer {call.a}{message(call.words)}",
    lines.WAIT_INTERRUPT: lambda call, process: f"wait interrupt {call.a}{delay(call.b)}",
    lines.START: lambda call, process: f"start {process}",
    lines.STOP: lambda call, process: f"stop {process}",
    lines.CLEAN: lambda call, process: f"clean {process}",
    lines.TICK: lambda call, process: "tick",
    lines.INTERRUPT: lambda call, process: f"interrupt {call.a}",
    lines.LIST: lambda call, process: f"list {process}",
    lines.LOWER: lambda call, process: f"lower {call.a}",
    lines.RAISE: lambda call, process: f"raise {call.a}",
}


def entry_said(entry):
    """A layout entry in words."""
    name = plain_word(entry.name) or quoted(name_bytes(entry.name).rstrip(b"\0"))
    return f"process {name} priority {entry.priority} buffers {entry.buffers}"


def digits_said(raw):
    """A line of 26 digits by its digits."""
    return f"call {raw[:2].decode()} {' '.join(raw[i:i + 4].decode() for i in range(2, lines.LENGTH, 4))}"


def has_unsaid_parts(call):
    """Whether a call that is accepted with any parts has some that its words don't say."""
    return call.number in (lines.LOWER, lines.RAISE) and (call.b or any(call.words))


def line_said(raw, names):
    """One more line of a log in words."""
    if raw.startswith(MARK) and all(0x20 <= byte <= 0x7E for byte in raw):
        names.take(raw)
        return raw.decode("ascii")
    line = names.take(raw)
    if lines.WELL_SHAPED(raw) and raw.startswith(b"00") and raw.endswith(b"0000"):  # a layout line, also one that comes too late
        return entry_said(entry_of(line._replace(call=lines.read_call(raw))))
    if line.call and line.call.number in SAID and not has_unsaid_parts(line.call):
        return SAID[line.call.number](line.call, names.said(line.call.a))
    return digits_said(raw) if lines.WELL_SHAPED(raw) else f"line {quoted(raw)}"


def settings_said(edition, counters):
    """What a log has no line for, in words: the edition, where it isn't 0, and the semaphores' counters."""
    return [*([f"edition {edition}"] if edition else []), *(f"semaphore {counter}" for counter in counters)]


def log_said(raws, is_torn=False):
    """Each line of a log in words, and, where its last line has no line end, a word for that."""
    names = Names()
    for raw in raws:
        yield line_said(raw, names)
    if is_torn:
        yield "torn"
