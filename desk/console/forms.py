"""Every form of the language: its pattern, and what it says. Help, completion and docs/CONSOLE.md have them from here.

In a pattern small letters are words that stand as they are, capitals are operands (desk/console/operands.py), and what is in
brackets may be left out. A form that another file knows by name goes by the small words it begins with.
"""

import re
from collections import namedtuple

# A form: its name, its pattern and what it says; the pattern's parts, and at which of them a line may end.
Form = namedtuple("Form", "name pattern says parts ends")

LAYOUT_FORMS = (
    ("process NAME priority PRIORITY [buffers COUNT]", "lays out a process; processes are numbered from 1 in this order, and so are their buffers"),
    ("edition EDITION", "lays the station out in this edition: 0, unless said, or 1, in which an interrupt is kept that nobody waits for"),
    ("semaphore COUNTER", "lays out a semaphore that begins with this counter; semaphores are numbered from 1"),
)
CALLER_FORMS = (
    ("send PROCESS [MESSAGE]", "call 01: who runs sends a message"),
    ("wait answer BUFFER", "call 02: who runs waits for the answer in a buffer of its own"),
    ("wait event [DELAY]", "call 03: who runs waits for a message or an answer, at most so many ticks"),
    ("answer BUFFER [MESSAGE]", "call 04: who runs answers the message in a buffer that it holds"),
    ("wait interrupt DEVICE [DELAY]", "call 05: who runs waits for a device, at most so many ticks"),
    ("lower SEMAPHORE", "call 0C: who runs lowers a semaphore, and waits if its counter is then below zero"),
    ("raise SEMAPHORE", "call 0D: who runs raises a semaphore, and the longest waiter wakes"),
)
OUTSIDE_FORMS = (
    ("start PROCESS", "call 06: starts a process that is stopped"),
    ("stop PROCESS", "call 07: stops a process; its event queue is kept"),
    ("clean PROCESS", "call 08: stops a process and ends its conversations"),
    ("tick [TICKS]", "call 09: a tick of the clock, or so many"),
    ("interrupt DEVICE", "call 0A: a device interrupts"),
    ("list PROCESS", "call 0B: lists the open buffers that a process has sent or received"),
)
LINE_FORMS = (
    ("call CALL [PARTS]", "any line of 26 digits by its digits: the call, then a, b and four words, as far as they aren't zero"),
    ("line TEXT", "a line of the log as it stands, whatever it is; most are no calls"),
    ("torn", "the last word of a script: the log's last line has no line end"),
)
BESIDE_FORMS = (
    ("screen", "shows what each process does, what it waits for, and how much is with it"),
    ("open", "lists every open buffer with its message"),
    ("stuck PROCESS", "says behind whom a process is stuck that waits for an answer"),
    ("rings", "lists the rings of processes that wait for each other"),
    ("table", "prints the table's words"),
    ("why", "says whether the table is sound, and if not which sentence it breaks, at which word"),
    ("undo", "takes the last line of words back, with all it did"),
    ("again", "does what undo took back"),
    ("save FILE", "saves the run so far: as a log where the name ends in .log, else as words"),
    ("load FILE", "begins anew with a file of words, or a log"),
    ("help [WORD]", "says what a word does, or names all words"),
    ("quit", "ends the console; Control-D does too"),
)


def part_names(pattern):
    """The parts of a pattern, and at how many of them a line may end."""
    parts, ends = [], []
    for piece in re.findall(r"[\[\]]|[A-Za-z]+", pattern):
        if piece == "[":
            ends.append(len(parts))
        elif piece != "]":
            parts.append(piece)
    return tuple(parts), (*ends, len(parts))


def form_of(pattern, says):
    """A form, by its pattern."""
    parts, ends = part_names(pattern)
    name = " ".join(part for part in parts[:2] if part.islower()) if parts[0] == "wait" else parts[0]
    return Form(name, pattern, says, parts, ends)


GROUPS = {
    "laying out": LAYOUT_FORMS, "calls of who runs": CALLER_FORMS, "calls from outside": OUTSIDE_FORMS,
    "lines by their digits": LINE_FORMS, "beside the calls": BESIDE_FORMS,
}
FORMS = {form.name: form for group in GROUPS.values() for form in (form_of(*one) for one in group)}
BY_CALLER = frozenset(form_of(*one).name for one in CALLER_FORMS) | {"call"}
BESIDE = frozenset(form_of(*one).name for one in BESIDE_FORMS)


def beginning_with(word):
    """The forms that begin with a word, in any case."""
    return [form for form in FORMS.values() if form.parts[0] == word.casefold()]


def first_words():
    """Every word that a form begins with, once."""
    return list(dict.fromkeys(form.parts[0] for form in FORMS.values()))
