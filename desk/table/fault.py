"""A fault told: which sentence of docs/MONITOR.md, 3 the words break, the word that is named, and the words around it."""

from desk.log.refusals import plural
from desk.log.words import IS_TEXT, wrapped
from desk.table.because import because
from desk.table.clauses import TEXTS, broken
from desk.table.words import HEADER_WORDS, processes_told

HEADER_MISSING, WORDS_MISSING = 1, 5  # the clauses of which the named word is missing
AROUND = 2                            # so many words before and behind the one that is named
MARK = ">"
NARROW = 60                           # below this width a label stands over its rows


def word_told(table, fault):
    """The word that is named, and what the others say against it, as a sentence."""
    clause, record, place = fault
    if clause == HEADER_MISSING:
        return f"Word {place} is missing: there are {len(table.words)} words, and a header has {HEADER_WORDS}."
    if clause == WORDS_MISSING:
        records = f"{processes_told(table)}, {plural(table.buffers, 'buffer')} and {plural(table.semaphores, 'semaphore')}"
        return f"Word {place} is missing: there are {len(table.words)} words, and by the header's words 0, 1 and 5, {records}, {table.used} are wanted."
    return f"Word {place}, {table.named(place)}, is {table.word(place):04X}; {because(table, clause, record, place)}."


def letters(word):
    """A word's two bytes as text, where they are that: words of a message that stand elsewhere show who wrote there."""
    pair = word.to_bytes(2, "big")
    return f'"{pair.decode("ascii")}"' if IS_TEXT(pair) else ""


def around(table, place):
    """The words around the place, each with its name; what stands behind the header has one only where the size is known."""
    for near in range(max(0, place - AROUND), min(place + AROUND + 1, len(table.words))):
        yield near, table.word(near), table.named(near) if table.used is not None or near < HEADER_WORDS else "a word"


def around_told(table, place, width):
    """The rows of the words around a place; where there is little room their label has a row of its own."""
    label = "  around"
    rows, lead = ([label], "  ") if width < NARROW else ([], f"{label:<11}")
    for near, word, name in around(table, place):
        head = f"{lead}{MARK if near == place else ' '}{near:>5} {word:04X} {letters(word):<4} "
        rows.append(wrapped(name, head, " " * len(head), width))
        lead = " " * len(lead)
    return rows


def fault_told(table, fault, width):
    """The lines that tell a fault."""
    clause, _, place = fault
    bullet, sentence = broken(clause)
    told = [wrapped(f"The table isn't sound: {TEXTS[clause]}.", "", "  ", width)]
    told.append(wrapped(f'Clause {clause}, of "{bullet}" in docs/MONITOR.md, 3: "{sentence}"', "  broken    ", " " * 12, width))
    told.append(wrapped(word_told(table, fault), "  word      ", " " * 12, width))
    return told + around_told(table, place, width)
