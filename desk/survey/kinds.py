"""Of which kind a stray is: what a station's answer shows beside what the log leaves before its call, by the nine lines of
docs/MONITOR.md, 14.

Up to its first stray a station answers as the proved monitor does, and there the log says what the table holds. So the station as
the log leaves it is read off the monitor's table, and not line by line; tests hold the two ways to each other.
"""

from collections import namedtuple

from desk.log import lines, woven
from desk.log.fates import LOST, STRANGER, WITHDRAWN, Fates
from desk.log.layout import Entry
from desk.log.lines import looks_laid
from desk.log.outfit import lacking
from desk.log.station import FOR_ANSWER, FOR_INTERRUPT, FOR_SEMAPHORE, FREE, OLDEST, RUNNING, Station

BUFFER_LOST, ANSWER_WITHDRAWN, STRANGER_WOKEN, ANOTHER = "buffer lost", "answer withdrawn", "stranger woken", "another answer"
KINDS = (BUFFER_LOST, ANSWER_WITHDRAWN, STRANGER_WOKEN, ANOTHER)
KIND_OF_FAULT = {LOST: BUFFER_LOST, WITHDRAWN: ANSWER_WITHDRAWN, STRANGER: STRANGER_WOKEN}

# The first stray of a log: the line of the answer, that of the call, whether the station was laid out before it, the call's line, the
# answers given, the table's words before the call, of each buffer whose clean has answered it, and of each process whether a clean has
# woken it and it hasn't run since, both from 0 on.
Stray = namedtuple("Stray", "line place laid call given table cleaned roused")

# Where the table's parts begin, and the words of a record (docs/MONITOR.md, 2).
PROCESSES, BUFFERS, CURRENT, SEMAPHORES, DEVICES, RECORDS = 0, 1, 2, 5, 8, 72
PROCESS_WORDS, BUFFER_WORDS, SEMAPHORE_WORDS = 16, 10, 4
KEPT = 0xFFFF


def records(table, begin, count, size):
    """So many records of a table, by number from 1."""
    return {n: table[begin + size * (n - 1):begin + size * n] for n in range(1, count + 1)}


def station_of(stray, outfit):
    """The station as the log leaves it before the stray's call."""
    table = stray.table
    processes = records(table, RECORDS, table[PROCESSES], PROCESS_WORDS)
    begin = RECORDS + PROCESS_WORDS * table[PROCESSES]
    buffers = records(table, begin, table[BUFFERS], BUFFER_WORDS)
    semaphores = records(table, begin + BUFFER_WORDS * table[BUFFERS], table[SEMAPHORES], SEMAPHORE_WORDS)
    station = Station([Entry(None, words[9], words[11], tuple(words[12:15])) for words in processes.values()], outfit)
    station.ticks, station.current = OLDEST, table[CURRENT]
    for p, words in processes.items():
        thing = {FOR_ANSWER: words[7], FOR_INTERRUPT: words[8] - 1, FOR_SEMAPHORE: words[15]}.get(words[4])
        station.processes[p].enter(words[4], thing, words[6])
    station.priorities = sorted(process.priority for process in station.processes.values() if process.state == RUNNING)
    for b, words in buffers.items():
        buffer = station.buffers[b]
        buffer.receiver, buffer.standing, buffer.sent, buffer.cleaned = words[3], words[4], OLDEST - words[5], stray.cleaned[b]
    station.opened = [b for b, buffer in station.buffers.items() if buffer.standing != FREE]
    for s, words in semaphores.items():
        station.semaphores[s].counter = words[0] - 65536 if words[0] > 32767 else words[0]
        station.semaphores[s].waiters = list(queued(words[1], processes))
    station.kept = {device: None for device in range(64) if table[DEVICES + device] == KEPT}
    return station


def queued(first, processes):
    """The processes of a queue from its first on."""
    while first:
        yield first
        first = processes[first][0]


def why_not(stray, outfit):
    """Why a stray says nothing of the station: its outfit is another than is set, or the line is none of the station's; else None."""
    line = lines.read_line(stray.place, stray.call, stray.laid)
    if stray.laid and line.call and stray.given and lines.is_digits(stray.given[0], lines.ANSWER_DIGITS):
        sentence = lacking(line.call, lines.answer_of(stray.given[0]), outfit)
        if sentence:
            return f"in line {stray.place:,} {sentence}"
    if line.fault and not stray.laid and looks_laid(stray.call):
        return f"line {stray.place:,} looks like a layout line and is none: {line.fault}"
    if line.fault and stray.call and not stray.given:
        return f"line {stray.place:,} is no call and has no answer, so it can't be told whose it is: {line.fault}"
    return None


def kind_of(stray, outfit):
    """Of which kind a stray is."""
    if not stray.laid:
        return ANOTHER
    line = woven.taken(lines.read_line(stray.place, stray.call, True), stray.given)
    if line.call is None or line.answer is None:
        return ANOTHER
    fates = Fates(station_of(stray, outfit))
    fates.roused = {p: (True, None) for p, roused in enumerate(stray.roused) if roused}
    try:
        _, found = fates.take(line)
    except (KeyError, ValueError):  # of records that there aren't, or aren't where they would have to be
        return ANOTHER
    return next((KIND_OF_FAULT[one.fault] for one in found if one.fault in KIND_OF_FAULT), ANOTHER)
