"""A station's own log, calls and answers: each answer stands behind its call and is marked with '> '. Nothing is run.

Answers that are missing, too many or of another shape than their call's are noted at their call, and the reading goes on.
"""

import os

from desk.log import lines
from desk.log.layout import PLAIN
from desk.log.lines import MARK
from desk.log.passed import refuse_lacking
from desk.log.replaying import PIECE, lines_of
from desk.log.standard import CannotGoOn

WRONG_LIST = 11  # the refusal of a layout


class Woven:
    """A log that is read from a descriptor; a with-statement takes it as it takes a replay."""

    def __init__(self, log, name, outfit=PLAIN):
        self.descriptor, self.name, self.outfit, self.passed = log, name, outfit, None

    def __enter__(self):
        return self

    def __exit__(self, *_):
        pass

    def pieces(self):
        """The pieces of the log as they come."""
        try:
            while piece := os.read(self.descriptor, PIECE):
                yield piece
        except OSError as error:
            raise CannotGoOn(f"{self.name} can't be read: {error.strerror}.") from error

    def followed(self):
        """Each line of the log with its answer."""
        return follow(lines_of(self.pieces()), self.outfit)


def grouped(raws):
    """Each line that isn't marked, with its place, and the marked lines behind it without their marks; marked lines at the head of
    a log come with place 0 and no line."""
    place, head, answers = 0, None, []
    for number, raw in enumerate(raws, 1):
        if raw.startswith(MARK):
            answers.append(raw[len(MARK):])
            continue
        if place or answers:
            yield place, head, answers
        place, head, answers = number, raw, []
    if place or answers:
        yield place, head, answers


def follow(raws, outfit=PLAIN):
    """Each line of a log with the answer that stands behind it."""
    return follow_groups(grouped(raws), outfit)


def follow_groups(groups, outfit=PLAIN):
    """Each line of a log with the answers that were found behind it; after a refused layout nothing follows. Refuses a log that shows
    another outfit, and one that carries no answers."""
    laid, held = False, []  # the lines before the first answer
    for place, raw, answers in groups:
        if raw is None:
            raise CannotGoOn("line 1 is an answer, and no call stands before it.")
        line = taken(lines.read_line(place, raw, laid), answers)
        if answers and held is not None:
            yield from held
            held = None
        if not laid and line.answer and line.answer.number == WRONG_LIST:
            yield line._replace(call=None)
            return
        laid = laid or bool(line.call and line.call.number != lines.LAYOUT)
        if line.call and line.answer:
            refuse_lacking(place, line.call, line.answer, outfit)
        if held is None:
            yield line
        else:
            held.append(line)
    if laid and held:
        raise CannotGoOn("the log carries no answers: each stands behind its call, marked with '> '.")
    yield from held or ()


def taken(line, answers):
    """A line with the answers behind it."""
    first, *more = answers or (None,)
    is_answer = first is not None and lines.is_digits(first, lines.ANSWER_DIGITS)
    if line.fault:
        return line._replace(written=tuple(answers), wrong=None if answers == [b"FF"] else wrong_to_none(answers))
    if line.call.number == lines.LAYOUT and not is_answer:
        return line._replace(written=tuple(answers), wrong="an answer stands behind it, and it gets none" if answers else None)
    if not is_answer:
        return line._replace(written=tuple(answers), wrong=wrong_to_call(first))
    answer = lines.answer_of(first)
    rows = [lines.row_of(raw) for raw in more if lines.is_digits(raw, lines.ROW_DIGITS)]
    due = answer.kind if line.call.number == lines.LIST and answer.number == 0 else 0
    wrong = None if len(rows) == len(more) == due else wrong_rows(line.call, due, len(more))
    return line._replace(answer=answer, rows=rows, written=tuple(answers), wrong=wrong)


def wrong_to_none(answers):
    """What is wrong with the answers to a line that is no call."""
    return "it is answered as a call would be" if answers else "no answer stands behind it"


def wrong_to_call(first):
    """What is wrong where a call has no answer."""
    if first is None:
        return "no answer stands behind it"
    return "the station took it for no call" if first == b"FF" else "what stands behind it is no answer"


def wrong_rows(call, due, given):
    """What is wrong with the lines behind an answer."""
    if call.number != lines.LIST:
        return "more than one answer stands behind it"
    return f"its rows are {given}, and its kind says {due}"
