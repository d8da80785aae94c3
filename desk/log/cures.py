"""What spoils a log whole, or makes a file none at all: each fault with its name in the words of its lines, and its cure."""

from desk.log import lines
from desk.log.lines import ANSWER_FAULT, BINARY_FAULT, BOM_FAULT, RETURN_FAULT, WIDE_FAULT

# What a whole log with the fault is, and how it is mended; the command takes the place of {}.
CURES = {
    RETURN_FAULT: ("the lines end in CR LF, as DOS and Windows write them", "tr -d '\\r' <LOG | {} - reads the log without"),
    BOM_FAULT: ("the log begins with a byte order mark, as some editors write it", "tail -c +4 LOG | {} - reads it without"),
    WIDE_FAULT: ("the log is written in UTF-16, two bytes a letter", "iconv -f UTF-16 -t ASCII LOG | {} - reads it"),
    BINARY_FAULT: ("the file looks like a binary one", "a log is text, lines of 26 digits"),
    ANSWER_FAULT: ("the lines look like what ./replay writes, answers and no calls", "{} wants the log of the calls, and where both stand in one "
                   "file, sed -E 's/^([0-9A-F]{30}|[0-9A-F]{20}|FF)$/> &/' LOG | {} - marks the answers"),
}


def cure_of(fault, command):
    """What a log with this fault in every line is, and its cure; None where there is no general one."""
    if fault not in CURES:
        return None
    what, cure = CURES[fault]
    return f"{what}; {cure.replace('{}', command)}"


def named(first, command):
    """What a log is that begins with this line, and its cure; None where it is nothing of the kind."""
    return cure_of(lines.shape_fault(first), command)
