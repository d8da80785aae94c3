"""A dump told: the station that its words show, or why they are no sound table and as much of the station as can be read."""

from desk.explain.stuck import ring_told
from desk.log.words import wrapped
from desk.table.fault import fault_told
from desk.table.station import UNSOUND, parts
from desk.table.words import HEADER_SORT, Table

SOUND = (0, 0, 0)


class Names:
    """The names of a table's processes, as those ask for them who tell a ring."""

    def __init__(self, table):
        self.name = table.process_name


def parts_told(told, width):
    """Labels and sentences in lines of some width; a label stands before its first sentence alone."""
    lines = []
    for label, sentences in told:
        heads = [f"  {label:<8}  ", *[" " * 12] * (len(sentences) - 1)]
        lines += [wrapped(sentence, head, " " * 14, width) for head, sentence in zip(heads, sentences)]
    return lines


def rings_told(table, monitor):
    """The rings of a sound table."""
    return [ring_told(Names(table), ring) for ring in monitor.rings()]


def unsure(table, fault):
    """Of which record nothing is sure: the one whose word is named; nothing where that is the header's."""
    sort, number, _ = table.where(fault[2])
    return f", and of {sort} {number} nothing is sure" if sort != HEADER_SORT else ""


def turned(words):
    """Words with their bytes the other way round."""
    return [(word & 0xFF) << 8 | word >> 8 for word in words]


def sizeless_told(table, monitor):
    """That a table without its size tells nothing else; and where its bytes turned round are a sound table, that they are."""
    monitor.take(turned(table.words))
    if monitor.why() == SOUND:
        return "With the two bytes of each word the other way round it is a sound table: the dump, or the board, has them so."
    return "Without its size nothing else of it can be read."


def unsound_told(table, fault, monitor, width):
    """A table that isn't sound."""
    told = fault_told(table, fault, width)
    if not table.is_whole:
        return [*told, wrapped(sizeless_told(table, monitor), "", "  ", width)]
    note = f"The station, as far as its words tell it; what stands behind '{UNSOUND}' other words contradict{unsure(table, fault)}."
    return [*told, wrapped(note, "", "  ", width), *parts_told(parts(table), width)]


def told(words, monitor, width):
    """A dump of words as lines, and whether they are a sound table."""
    table = Table(words)
    monitor.take(words)
    fault = monitor.why()
    if fault != SOUND:
        return unsound_told(table, fault, monitor, width), False
    rings = rings_told(table, monitor)
    return ["The table is sound.", *parts_told([*parts(table), *([("rings", rings)] if rings else [])], width)], True
