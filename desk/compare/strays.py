"""One call whose answers are others than they should be, in words: how they differ, and both beside each other."""

from desk.compare.beside import printable, told
from desk.compare.calls import apart
from desk.compare.program import shown
from desk.log import lines
from desk.log.alone import told_alone
from desk.log.lines import MARK, is_digits
from desk.log.refusals import plural

MOST_LINES = 8  # so many answers of a call are shown on each side


def answer_in(group):
    """The answer of a call, where the first line behind it is one; else None."""
    first = group.answers[0] if group.answers else b""
    return lines.answer_of(first) if is_digits(first, lines.ANSWER_DIGITS) else None


def rows_in(group):
    """The rows behind an answer, by their buffers."""
    rows = [lines.row_of(raw) for raw in group.answers[1:] if is_digits(raw, lines.ROW_DIGITS)]
    return {row.buffer: row for row in rows}


def answers_differ(given, right, names):
    """The parts of an answer that are others than they should be. A refusal's other parts are zeros, which say nothing."""
    if given.number != right.number:
        return [f"its number is {given.number} where {right.number} is due"]
    parts = [f"its {part} is {getattr(given, part)} where {getattr(right, part)} is due" for part in ("kind", "buffer")
             if getattr(given, part) != getattr(right, part)]
    if given.current != right.current and not right.number:
        runs = [names.name(current) if current else "nobody" for current in (given.current, right.current)]
        parts.append(f"{runs[0]} runs where {runs[1]} should")
    elif given.current != right.current:
        parts.append(f"its current is {given.current} where 0 is due")
    if given.words != right.words:
        spelt = [" ".join(f"{word:04X}" for word in answer.words) for answer in (given, right)]
        parts.append(f"its words are {spelt[0]} where {spelt[1]} are due")
    return parts


def rows_differ(given, right):
    """How the rows of a listing are others than they should be."""
    parts = [f"the row of buffer {b} is left out" for b in sorted(set(right) - set(given))]
    parts += [f"the row of buffer {b} is too many" for b in sorted(set(given) - set(right))]
    for b in sorted(set(given) & set(right)):
        other = [part for part in lines.Row._fields if getattr(given[b], part) != getattr(right[b], part)]
        parts += [f"in the row of buffer {b} the {part} is {getattr(given[b], part)} where {getattr(right[b], part)} is due" for part in other]
    return parts


def parts_told(own, due, names):
    """How a station's answers to a call differ from those that are due, in pieces of a sentence."""
    given, right = answer_in(own), answer_in(due)
    if given and right:
        parts = answers_differ(given, right, names) + rows_differ(rows_in(own), rows_in(due))
        return parts or [f"{plural(len(own.answers), 'line')} where {plural(len(due.answers), 'line')} {'is' if len(due.answers) == 1 else 'are'} due"]
    if not own.answers:
        return ["no answer"]
    if not due.answers:
        return ["an answer where none is due"]
    return ["answered as a call, and it is none"] if given else ["no call, says the answer" if own.answers == [b"FF"] else "what stands there is no answer"]


def strayed(own, due):
    """How a station strayed at a call, in a word or two."""
    if len(own.answers) < len(due.answers) and own.answers == due.answers[:len(own.answers)]:
        return "left an answer out"
    if len(own.answers) > len(due.answers) and due.answers == own.answers[:len(due.answers)]:
        return "gave an answer too many"
    return "answered otherwise"


def lines_told(who, group, other, names):
    """The answers of one side that the other hasn't, each as it stands and in words."""
    answers = apart(group, other)
    head = f"  {who:<8}"
    if not answers:
        yield told(head, "Nothing more" if group.answers else "Nothing")
    for answer in answers[:MOST_LINES]:
        raw = MARK + answer
        yield f"{head}{printable(shown(raw))}"
        yield told(" " * 10, told_alone(raw, names))
        head = " " * 10
    if len(answers) > MOST_LINES:
        yield told(" " * 10, f"And {plural(len(answers) - MOST_LINES, 'line')} more")
