"""The numbers of refusal in words: what each means, and what it was in the call at hand."""

from desk.log import lines
from desk.log.station import (FOR_ANSWER, FOR_EVENT, FOR_INTERRUPT, FOR_SEMAPHORE, FREE, HELD, ORPHANED, RUNNING, STANDINGS,
                                STOPPED)

# In the words of monitor_refusal_text in include/elvomike/monitor.h.
MEANINGS = {
    1: "the table is not sound",
    2: "no process runs that could make the call",
    3: "there is no such device",
    4: "there is no such process",
    5: "the sender has no free buffer",
    6: "the caller may neither wait for that buffer nor answer it",
    7: "the process's state doesn't allow it",
    8: "a process can't send to itself",
    9: "another process waits for the device",
    10: "the room is too short for the listing",
    11: "the layout is not a legal one",
    12: "the table is too short for the layout",
    13: "there is no such call",
    19: "there is no such semaphore",
    20: "the semaphore's counter is at its end",
}

DEVICES = 64

STATES = {
    STOPPED: "is stopped", RUNNING: "is in the running queue", FOR_EVENT: "waits for an event",
    FOR_ANSWER: "waits for an answer", FOR_INTERRUPT: "waits for a device", FOR_SEMAPHORE: "waits for a semaphore",
}


def meaning_of(number):
    """What a number of refusal means."""
    return MEANINGS.get(number, "a number that no refusal has")


def plural(count, thing):
    """A count with its thing: no buffers, 1 buffer, 2 buffers."""
    return f"{count or 'no'} {thing}{'' if count == 1 else 's'}"


def how_many(count, thing):
    """A count with its thing, its thousands set off."""
    return plural(count, thing).replace(str(count), f"{count:,}")


def no_free_buffer(station):
    """Why the caller can't send."""
    count = len(station.processes[station.current].owns)
    return f"{station.name(station.current)} has {plural(count, 'buffer')}{', all in use' if count else ''}"


def wrong_buffer(call, station):
    """Why the caller can't wait for this buffer or answer it."""
    count = len(station.buffers)
    if call.a not in station.buffers:
        return f"buffers are 1 to {count}" if count else "there are no buffers"
    buffer = station.buffers[call.a]
    if call.number == lines.WAIT_ANSWER:
        if buffer.owner != station.current:
            return f"buffer {call.a} belongs to {station.name(buffer.owner)}"
        return f"buffer {call.a} is {STANDINGS[buffer.standing]}, so no answer will come"
    if buffer.standing == FREE:
        return f"buffer {call.a} is free"
    if buffer.receiver != station.current:
        return f"buffer {call.a} was sent to {station.name(buffer.receiver)}"
    return f"buffer {call.a} is {STANDINGS[buffer.standing]}, and an answer wants {STANDINGS[HELD]} or {STANDINGS[ORPHANED]}"


def is_wrong_buffer(call, station):
    """Whether the caller can't wait for this buffer, or can't answer it."""
    buffer = station.buffers.get(call.a)
    if buffer is None:
        return True
    if call.number == lines.WAIT_ANSWER:
        return buffer.owner != station.current or buffer.standing in (FREE, ORPHANED)
    return buffer.receiver != station.current or buffer.standing not in (HELD, ORPHANED)


# Of each refusal that a log shows the reason of: whether there is that reason, as the log leaves the station before the call.
REASONS = {
    2: lambda call, station: station.current == 0,
    3: lambda call, station: call.a >= DEVICES,
    4: lambda call, station: call.a not in station.processes,
    5: lambda call, station: station.current in station.processes and not station.free_of(station.current),
    6: is_wrong_buffer,
    7: lambda call, station: call.a in station.processes and
    (station.processes[call.a].state == STOPPED) == (call.number == lines.STOP),
    8: lambda call, station: call.a == station.current,
    9: lambda call, station: station.waiter(call.a) != 0,
    19: lambda call, station: call.a not in station.semaphores,
}
DETAILS = {
    3: lambda call, station: f"devices are 0 to {DEVICES - 1}",
    4: lambda call, station: f"processes are 1 to {len(station.processes)}",
    5: lambda call, station: no_free_buffer(station),
    6: wrong_buffer,
    7: lambda call, station: f"{station.name(call.a)} {STATES[station.processes[call.a].state]}",
    9: lambda call, station: f"{station.name(station.waiter(call.a))} does",
    13: lambda call, station: "calls are 01 to 0D",
    19: lambda call, station: f"semaphores are 1 to {len(station.semaphores)}" if station.semaphores else "there are none",
}


def detail(number, call, station):
    """What a refusal was about in this call, or None where its meaning says it all. The monitor's have their reason; a station's own
    may be wrong."""
    if number in REASONS and not REASONS[number](call, station):
        return "the log doesn't show why"
    return DETAILS[number](call, station) if number in DETAILS else None


def number_told(number):
    """A refusal's number; the replay writes it in hexadecimal, so both are given where they differ."""
    return f"{number} ({number:02X} in the replay)" if number > 9 else f"{number}"


def refused(number, call, station):
    """A refusal in words."""
    about = detail(number, call, station)
    return f"refused with {number_told(number)}, {meaning_of(number)}{f' ({about})' if about else ''}"
