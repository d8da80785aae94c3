"""What is wrong with the word that a fault names: half a sentence for each clause, on what the other words say."""

from desk.log.layout import name_fault
from desk.log.refusals import STATES, plural
from desk.log.station import ANSWERED, FOR_ANSWER, FOR_INTERRUPT, FOR_SEMAPHORE, QUEUED, RUNNING, STANDINGS
from desk.table import words as at
from desk.table.following import followed, kind_of, listed

SIGNED = 0x8000
PROCESSES, BUFFERS, SEMAPHORES = ("process", "processes"), ("buffer", "buffers"), ("semaphore", "semaphores")


def does(table, p):
    """What a process does, by its state."""
    state = table.process(p, at.STATE)
    return "is in state %d, which there is not" % state if state not in STATES else "runs" if state == RUNNING else STATES[state]


def stands(table, b):
    """Where a buffer stands."""
    standing, owner, receiver = (table.buffer(b, word) for word in (at.STANDING, at.OWNER, at.RECEIVER))
    if standing == QUEUED:
        return f"queued at process {receiver}"
    if standing == ANSWERED:
        return f"answered, with process {owner}"
    return STANDINGS[standing] if standing < len(STANDINGS) else f"of standing {standing}, which there is not"


def number_in(word, count, things):
    """That a number names no record of so many, or None where it names one."""
    if 1 <= word <= count:
        return None
    return f"there is 1 {things[0]}" if count == 1 else f"there are {count or 'no'} {things[1]}"


def name_told(table, p, _):
    fault = name_fault(tuple(table.process(p, at.NAME + i) for i in range(3)))
    return f"{fault}; a name is one to five bytes that aren't zero, then zeros"


def twin_told(table, p, _):
    def name(q):
        return [table.process(q, at.NAME + i) for i in range(3)]
    return f"process {next(q for q in range(1, p) if name(q) == name(p))} has the same name, {table.process_name(p)}"


def owned(table, p):
    """How many buffers the processes before p own."""
    return sum(table.process(q, at.OWNS) for q in range(1, p))


def first_own_told(table, p, _):
    before, count = owned(table, p), table.process(p, at.OWNS)
    return f"process {p} owns {plural(count, 'buffer')}, those before it {before or 'none'}, so that it should be {before + 1 if count else 0}"


def all_owned_told(table, _, __):
    return f"the processes own {plural(owned(table, table.processes + 1), 'buffer')} together"


def owner_told(table, b, _):
    p = next((p for p in range(1, table.processes + 1) if owned(table, p) < b <= owned(table, p + 1)), 0)
    return f"buffer {b} is one of process {p}'s own"


# ---- queues

def end_told(table, _, place):
    """Why the record that a link names doesn't belong where the link is."""
    kind, word = kind_of(table, place), table.word(place)
    if kind.sort == at.BUFFER_SORT:
        return number_in(word, table.buffers, BUFFERS) or f"buffer {word} is {stands(table, word)}"
    if none := number_in(word, table.processes, PROCESSES):
        return none
    if table.process(word, at.STATE) == FOR_SEMAPHORE:
        return f"process {word} waits for semaphore {table.process(word, at.SEMAPHORE)}"
    return f"process {word} {does(table, word)}"


def start_told(table, _, place):
    return f"{table.where(place).sort} {table.where(place).number} is the first of {kind_of(table, place).called}, and before the first there is none"


def back_told(table, record, place):
    kind = kind_of(table, place)
    if table.where(place).sort != kind.sort:
        return f"{kind.sort} {record} is the one behind which there is none"
    return f"{kind.sort} {record}'s next is {table.where(place).number}, so that it should be {record}"


def met_told(table, record, place):
    kind = kind_of(table, place)
    passed, _ = followed(table, kind)
    way = f"is {listed(passed)}, and never comes to it" if passed else "is empty"
    return f"{kind.sort} {record} belongs in {kind.called}, which, followed from its first, {way}"


def rises_told(table, p, _):
    behind = table.process(p, at.NEXT)
    return f"process {behind} stands behind it with {table.process(behind, at.PRIORITY)}"


def counter_told(table, s, place):
    word = table.word(place)
    waiting = sum(table.process(p, at.STATE) == FOR_SEMAPHORE and table.process(p, at.SEMAPHORE) == s for p in range(1, table.processes + 1))
    value = word - 0x10000 if word >= SIGNED else word
    return f"that is {value}, and {'nobody waits' if not waiting else '1 process waits' if waiting == 1 else f'{waiting} processes wait'} for semaphore {s}"


# ---- processes, buffers and devices

def idle_told(table, p, _):
    return f"process {p} {does(table, p)}, and is in no queue"


def unqueued_told(table, b, _):
    return f"buffer {b} is {stands(table, b)}, and in no event queue"


def receiver_told(table, b, place):
    return number_in(table.word(place), table.processes, PROCESSES) or f"process {table.word(place)} is its owner"


def only_told(state, wanted, otherwise):
    """A word that is one thing in a state, and 0 in any other."""
    def told(table, p, place):
        return wanted(table, p, table.word(place)) if table.process(p, at.STATE) == state else f"process {p} {does(table, p)}, {otherwise}"
    return told


def semaphore_wanted(table, p, s):
    return f"process {p} waits for a semaphore, and {number_in(s, table.semaphores, SEMAPHORES)}"


def answer_wanted(table, p, b):
    if none := number_in(b, table.buffers, BUFFERS):
        return f"process {p} waits for an answer, and {none}"
    if table.buffer(b, at.OWNER) != p:
        return f"buffer {b} is process {table.buffer(b, at.OWNER)}'s"
    return f"buffer {b} is {stands(table, b)}, so that no answer will come"


def device_wanted(table, p, word):
    if not 1 <= word <= at.DEVICES:
        return f"process {p} waits for a device, and devices plus 1 are 1 to {at.DEVICES}"
    return f"device {word - 1}'s word is {table.device(word - 1):04X}, and not process {p}"


def device_told(table, record, place):
    word = table.word(place)
    if word == at.KEPT:
        return "that is an interrupt kept, which only edition 1 knows"
    if none := number_in(word, table.processes, PROCESSES):
        return none
    if table.process(word, at.STATE) != FOR_INTERRUPT:
        return f"process {word} {does(table, word)}"
    return f"process {word} waits for device {table.process(word, at.DEVICE) - 1}"


def fixed(words):
    """The same half sentence for every word."""
    return lambda table, record, place: words


BECAUSE = {
    2: fixed("a table has 1 to 32 processes"), 3: fixed("a table has at most 128 buffers"), 4: fixed("a table has at most 16 semaphores"),
    6: fixed("editions are 0 and 1"), 7: fixed("it is always 0"), 8: fixed("it is always 0"), 9: fixed("priorities are 1 to 255"),
    10: name_told, 11: twin_told, 12: first_own_told, 13: all_owned_told, 14: owner_told,
    **dict.fromkeys((15, 16, 18, 23, 24, 26, 33, 34, 36), end_told), **dict.fromkeys((17, 25, 35), start_told),
    **dict.fromkeys((19, 27, 37), back_told), **dict.fromkeys((20, 28, 38), met_told), 21: rises_told, 22: idle_told, 29: unqueued_told,
    30: fixed("standings are 0 to 4"), 31: lambda table, b, place: f"buffer {b} is free", 32: receiver_told, 39: counter_told,
    40: fixed("states are 0 to 5"), 41: fixed("reasons are 0 to 3 and 5"),
    42: only_told(RUNNING, None, "and only one that runs has a reason"),
    43: only_told(FOR_SEMAPHORE, semaphore_wanted, "and names no semaphore then"),
    44: lambda table, p, place: f"process {p} waits for an event, and has one",
    45: only_told(FOR_ANSWER, answer_wanted, "and waits for no answer"), 46: only_told(FOR_INTERRUPT, device_wanted, "and waits for no device"),
    47: lambda table, p, place: f"process {p} {does(table, p)}, and has no delay then", 48: device_told,
}


def because(table, clause, record, place):
    """What the other words say against the word that is named."""
    return BECAUSE[clause](table, record, place)
