"""The faults of lines that are no calls: which are of the same kind, those that repeat told as one, and their cure."""

import re
from functools import lru_cache

from desk.log.cures import cure_of
from desk.log.lines import OutputEnds

DETAILS = re.compile(r"'.'|the byte \w\w hex|digits \d+ to \d+|call \w\w|\d+ characters?|character \d+|are \w{4};|, from '[^']*' to '[^']*'")


@lru_cache(maxsize=1000)
def kind_of(fault):
    """A fault without what differs from line to line."""
    return DETAILS.sub("..", fault)


def is_next(held, line):
    """Whether a line stands right behind others with a fault of its kind."""
    follows = line.place == held.place + held.repeats + 1 and (held.spoilt or not line.spoilt)
    return line.fault and follows and kind_of(line.fault) == kind_of(held.fault)


def together(followed, borders=()):
    """The lines of a log, those that follow on each other with a fault of the same kind as one, which is the first of them; a
    line at a border begins anew, and so does one with a station's answers before it."""
    held = None
    try:
        for line in followed:
            if held and line.place not in borders and is_next(held, line):
                held = held._replace(repeats=held.repeats + 1)
                continue
            if held:
                yield held
            held = line if line.fault else None
            if held is None:
                yield line
    except OutputEnds:
        if held:
            yield held
        raise
    if held:
        yield held


def fault_told(line):
    """A line that is no call as sentences: its fault, how many lines behind it have one of the kind too, and the cure."""
    last = line.place + line.repeats
    more = ""
    if line.repeats:
        more = f" Line {last} has" if line.repeats == 1 else f" The {line.repeats} lines behind it, up to line {last}, have"
        more += " a fault of this kind too."
    return [f"No call (FF): {line.fault}.{more}", *cures_told(line.fault)]


def cures_told(fault):
    """The cure of a fault, as sentences."""
    cure = cure_of(fault, "./explain")
    return [f"{cure[0].upper()}{cure[1:]}."] if cure else []
