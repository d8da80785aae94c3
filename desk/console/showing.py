"""What the console shows beside the calls: the operator's screen, open buffers, who is stuck, rings, the table's words, and why they
are no sound table.

Counts, chains, rings and words are the monitor's; the words for them are those of ./explain. Each function gives lines of text.
"""

from desk.console.session import setting_faults
from desk.explain.screen import COLUMNS, HEADING, state_told
from desk.explain.stuck import chain_told, ring_told
from desk.log.refusals import MEANINGS, STATES, number_told
from desk.log.words import conversation, refusal_told, spelled, wait_told, wrapped
from desk.table.fault import fault_told
from desk.table.telling import SOUND
from desk.table.words import Table

HEADER_WORDS, DEVICES, PROCESS_WORDS, BUFFER_WORDS, SEMAPHORE_WORDS = 8, 64, 16, 10, 4
FIRST_RECORD, MESSAGE_PLACE = HEADER_WORDS + DEVICES, 6
ROW_WORDS = 8


def refused_layout(session):
    """Why the layout is refused that there is so far, as sentences; None where it isn't. While it goes on it is done to look at."""
    if session.names.laid and not session.over:
        return None
    if not session.over and session.lay_out():
        return None
    told = [*refusal_told(session.names.entries), *setting_faults(session.edition, session.counters)]
    return [wrapped(sentence, "", "  ", session.width) for sentence in told]


def screen(session):
    """A row for each process."""
    station = session.station()
    rows = [HEADING]
    for (number, process), (queue, sent) in zip(station.processes.items(), session.monitor.screen()):
        rows.append(COLUMNS.format(process.name, state_told(number, station), wait_told(process, station), queue, sent).rstrip())
    return rows


def open_buffers(session):
    """Every open buffer with its message or answer."""
    station, words = session.station(), session.monitor.words()
    first = FIRST_RECORD + PROCESS_WORDS * len(station.processes) + MESSAGE_PLACE
    rows = []
    for b, buffer in station.open_buffers():
        place = first + BUFFER_WORDS * (b - 1)
        rows.append(wrapped(f"{conversation(b, buffer, station)}: {spelled(tuple(words[place:place + 4]))}.", "", "  ", session.width))
    return rows or ["Nothing open."]


def stuck(session, number):
    """Behind whom a process is stuck."""
    station = session.station()
    refusal, is_ring, listed = session.monitor.stuck(number)
    if refusal == 4:
        return [f"Refused with {number_told(4)}, {MEANINGS[4]} (processes are 1 to {len(station.processes)})."]
    if refusal:
        does = STATES[station.processes[number].state]
        return [f"Refused with {number_told(refusal)}: {station.name(number)} {does}, so it is stuck behind nobody."]
    ring = listed[listed.index(station.holder(listed[-1])):] if is_ring else []
    chain = [] if ring == listed else [chain_told(station, listed, dict.fromkeys(ring, ring))]
    told = chain + ([ring_told(station, ring)] if ring else [])
    return [wrapped(sentence, "", "  ", session.width) for sentence in told]


def rings(session):
    """Every ring."""
    station = session.station()
    return [wrapped(ring_told(station, ring), "", "  ", session.width) for ring in session.monitor.rings()] or ["There is no ring."]


def records(station):
    """The table's records in their order: how many words each has, and what it is."""
    yield HEADER_WORDS, "header"
    for device in range(0, DEVICES, ROW_WORDS):
        yield ROW_WORDS, f"devices {device} to {device + ROW_WORDS - 1}"
    for number, process in station.processes.items():
        yield PROCESS_WORDS, f"process {number}, {process.name}"
    for b in station.buffers:
        yield BUFFER_WORDS, f"buffer {b}"
    for s in station.semaphores:
        yield SEMAPHORE_WORDS, f"semaphore {s}"


def table(session):
    """The table's words, each row with the place of its first; devices for which there is nothing are left out."""
    words, place, rows = session.monitor.words(), 0, []
    for length, label in records(session.station()):
        width = length if length < PROCESS_WORDS else ROW_WORDS
        for begin in range(place, place + length, width):
            digits = " ".join(f"{word:04X}" for word in words[begin:begin + width])
            if any(words[begin:begin + width]) or not label.startswith("devices"):
                rows.append(f"{begin:>5}  {digits:<49}  {label if begin == place else ''}".rstrip())
        place += length
    return rows


def why(session):
    """Whether the table is sound, and if not which sentence it breaks, at which word."""
    fault = session.monitor.why()
    return ["The table is sound."] if fault == SOUND else fault_told(Table(session.monitor.words()), fault, session.width)
