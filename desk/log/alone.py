"""One line by itself in words, whatever log it stands in: a call, an answer, a line of a listing, or none of these.

An answer may be marked with '> ', as docs/LOG.md marks them. What it says is told without the call it answers.
"""

from desk.log import lines
from desk.log.layout import entry_of, numbered, shown_name
from desk.log.refusals import meaning_of, number_told
from desk.log.words import asked, entry_parts, listed, spelled


def unmarked(raw):
    """A line without the mark of an answer."""
    return raw[len(lines.MARK):] if raw.startswith(lines.MARK) else raw


def entries_of(head):
    """The layout entries at the head of a log: those before its first call."""
    entries = []
    for place, raw in enumerate(head, 1):
        line = lines.read_line(place, raw, False)
        if line.call and line.call.number != lines.LAYOUT:
            break
        if line.call:
            entries.append(entry_of(line))
    return entries


class Names:
    """What the processes are called that the first lines of a log lay out; any other goes by its number."""

    def __init__(self, head):
        self.names = {p: shown_name(p, entry.name) for p, entry in enumerate(entries_of(head), 1)}

    def name(self, number):
        """What a process is called."""
        return self.names.get(number, numbered(number))


def parts_told(answer, names):
    """The parts of an accepted answer that aren't zero, and who runs."""
    parts = [f"kind {answer.kind}"] if answer.kind else []
    parts += [f"buffer {answer.buffer}"] if answer.buffer else []
    parts += [spelled(answer.words)] if any(answer.words) else []
    runs = f"{names.name(answer.current)} runs" if answer.current else "nobody runs"
    return f"Done{': ' if parts else ''}{', '.join(parts)}; {runs}"


def answer_told(answer, names):
    """An answer in words."""
    if answer.number == 0:
        return parts_told(answer, names)
    return f"Refused with {number_told(answer.number)}, {meaning_of(answer.number)}"


def row_told(row, names):
    """A line of a listing in words."""
    return listed([row], names)[0].rstrip(".")


def call_told(line, names):
    """A line of 26 digits in words."""
    if line.fault:
        return f"No call: {line.fault}"
    if line.call.number == lines.LAYOUT:
        return f"Lay out {entry_parts(entry_of(line))}"
    return asked(line.call, names)


def told_alone(raw, names):
    """Any line in words."""
    body = unmarked(raw)
    if lines.is_digits(body, lines.ANSWER_DIGITS):
        return answer_told(lines.answer_of(body), names)
    if lines.is_digits(body, lines.ROW_DIGITS):
        return row_told(lines.row_of(body), names)
    if body == b"FF":
        return "No call, says the answer"
    if raw != body:
        return "No answer: one has 30 digits, a line of a listing 20, and FF stands for no call"
    return call_told(lines.read_line(None, raw, False), names)
