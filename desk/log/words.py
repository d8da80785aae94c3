"""One line of a log and its answer as a line for a person, wrapped to the width there is."""

import re
from struct import Struct

from desk.log import lines
from desk.log.layout import plain_name, refusal_reasons
from desk.log.refusals import plural, refused
from desk.log.station import (ANSWER, ANSWERED, FOR_ANSWER, FOR_EVENT, FOR_INTERRUPT, FOR_SEMAPHORE, FREE, HELD, KEPT_INTERRUPT, MESSAGE,
                                OLDEST, ORPHANED, QUEUED, STANDINGS, WAITING)

WIDTH = 80  # where there is no terminal
KEPT = "\xa0"  # a blank at which no line may end
FOUR_WORDS = Struct(">4H")
STANDING_WORDS = dict(enumerate(STANDINGS))
IS_TEXT = re.compile(rb"[ -~]+").fullmatch
MOST_OPEN = 6      # so many open buffers are named in a line, the rest counted
MOST_REASONS = 10  # so many reasons are given for a refused layout, the rest counted

HEADING = ("line", "caller", ["Asked: what came back. Who runs. Open buffers: '1 A>B held (2 ticks)' is buffer 1, sent "
                              "by A 2 ticks ago, held by B."])


def kept_together(piece):
    """A piece that no line end may cut: its blanks are such until it is wrapped."""
    return piece.replace(" ", KEPT)


def spelled(words):
    """Four words as the replay's digits, and as text where they are that."""
    letters = FOUR_WORDS.pack(*words).rstrip(b"\0")
    digits = "%04X\xa0%04X\xa0%04X\xa0%04X" % words
    return f'{digits}{KEPT}"{kept_together(letters.decode("ascii"))}"' if IS_TEXT(letters) else digits


def limit(delay):
    """A delay as a person says it; 0 is no limit."""
    return f", {plural(delay, 'tick')} at most" if delay else ""


# What each call asks for; the call's a, where it is a process, comes with its name.
ASKED = {
    lines.SEND: lambda call, name: f"Send {spelled(call.words)} to {name}",
    lines.WAIT_ANSWER: lambda call, name: f"Wait for the answer to buffer {call.a}",
    lines.WAIT_EVENT: lambda call, name: f"Wait for an event{limit(call.a)}",
    lines.SEND_ANSWER: lambda call, name: f"Answer buffer {call.a} with {spelled(call.words)}",
    lines.WAIT_INTERRUPT: lambda call, name: f"Wait for device {call.a}{limit(call.b)}",
    lines.START: lambda call, name: f"Start {name}",
    lines.STOP: lambda call, name: f"Stop {name}",
    lines.CLEAN: lambda call, name: f"Clean {name}",
    lines.TICK: lambda call, name: "Tick",
    lines.INTERRUPT: lambda call, name: f"Interrupt from device {call.a}",
    lines.LIST: lambda call, name: f"List the buffers of {name}",
    lines.LOWER: lambda call, name: f"Lower semaphore {call.a}",
    lines.RAISE: lambda call, name: f"Raise semaphore {call.a}",
}


def asked(call, station):
    """What a call asks for."""
    if call.number not in ASKED:
        return f"Call {call.number:02X}"
    return ASKED[call.number](call, station.name(call.a))


def wakes(station, woken):
    """Who woke, or nothing."""
    return f"{' and '.join(station.name(p) for p in woken)} {'wakes' if len(woken) == 1 else 'wake'}" if woken else ""


def with_wakes(result, station, woken):
    """What came back, and after it who woke."""
    return f"{result}, {wakes(station, woken)}" if woken else result


def wait_named(state, thing):
    """What a process in a state waits for."""
    return {FOR_EVENT: "an event", FOR_ANSWER: f"the answer to buffer {thing}", FOR_INTERRUPT: f"device {thing}",
            FOR_SEMAPHORE: f"semaphore {thing}"}[state]


def wait_told(process, station):
    """What a process waits for, and how long at most; nothing where it doesn't wait."""
    if process.state not in WAITING:
        return ""
    named = wait_named(process.state, process.thing)
    if process.state != FOR_ANSWER:
        return named + limit(process.delay)
    buffer = station.buffers[process.thing]
    where = {HELD: "held by", QUEUED: "queued at"}.get(buffer.standing)
    return f"{named}, {where} {station.name(buffer.receiver)}" if where else f"{named}, which is {STANDINGS[buffer.standing]}"


def ran_out(change, station):
    """Which waits ran out at a tick, and that those who waited wake; or that nobody does."""
    if not change.ran_out:
        return "nobody wakes"
    waits = [f"{station.name(p)}'s wait for {wait_named(state, thing)}" for p, state, thing in change.ran_out]
    both = "" if len(waits) == 1 else " both" if len(waits) == 2 else " all"
    return f"{' and '.join(waits)}{both} ran out, {wakes(station, change.woken)}"


def stopped(call, change, station):
    """That a process is stopped, and which semaphore counts one more for it."""
    given = f", the counter of semaphore {change.left} is {station.semaphores[change.left].counter}" if change.left else ""
    return f"{station.name(call.a)} is stopped{given}"


def cleaned(call, change, station):
    """What a clean did to the process and to the buffers, those that went the same way together."""
    ways = {FREE: "free again", ORPHANED: "orphaned", ANSWERED: "answered with 8000 hexadecimal"}
    parts = [f"{station.name(call.a)} was stopped already" if change.stopped else stopped(call, change, station)]
    for standing, way in ways.items():
        numbers = [str(b) for b, _, after in change.moved if after == standing]
        if numbers:
            parts.append(f"buffer{'s' if len(numbers) > 1 else ''} {', '.join(numbers)} {way}")
    return with_wakes("; ".join(parts), station, change.woken)


def fetched(answer, station):
    """What a wait for an event or an answer came back with at once."""
    buffer = station.buffers[answer.buffer]
    if answer.kind == MESSAGE:
        return f"the message {spelled(answer.words)} from {station.name(buffer.owner)}; buffer {answer.buffer} is held now"
    cause = f", because {station.name(buffer.cleaned)} was cleaned" if buffer.cleaned else ""
    return f"the answer {spelled(answer.words)}{cause}; buffer {answer.buffer} is free again"


def gone_back(call, change, station):
    """Where an answer went; nowhere, where a station lets one answer what it doesn't hold."""
    if not change.moved:
        return "done, and by the log nothing comes of it"
    buffer = station.buffers[call.a]
    if buffer.standing == FREE:
        return "it was orphaned, and is free again"
    return with_wakes(f"it goes back to {station.name(buffer.owner)}", station, change.woken)


def counted(call, change, station):
    """What a lower or a raise left of a semaphore's counter, and who waits or wakes for it."""
    waits = call.number == lines.LOWER and station.processes[change.caller].state == FOR_SEMAPHORE
    result = f"its counter is {station.semaphores[call.a].counter}"
    return with_wakes(f"{result}, {station.name(change.caller)} waits" if waits else result, station, change.woken)


def came_back(line, change, station):
    """What an accepted call came back with."""
    call, answer = line.call, line.answer
    if answer.kind in (MESSAGE, ANSWER) and call.number in (lines.WAIT_ANSWER, lines.WAIT_EVENT):
        return fetched(answer, station)
    if call.number == lines.WAIT_INTERRUPT and answer.kind == KEPT_INTERRUPT:
        return "an interrupt was kept for it"
    if call.number in (lines.WAIT_ANSWER, lines.WAIT_EVENT, lines.WAIT_INTERRUPT):
        return f"{station.name(change.caller)} waits"
    if call.number in (lines.LOWER, lines.RAISE):
        return counted(call, change, station)
    if call.number == lines.SEND:
        return with_wakes(f"it goes out in buffer {answer.buffer}", station, change.woken)
    if call.number == lines.SEND_ANSWER:
        return gone_back(call, change, station)
    if call.number == lines.CLEAN:
        return cleaned(call, change, station)
    if call.number == lines.LIST:
        return plural(answer.kind, "open buffer")
    if call.number == lines.INTERRUPT and change.woken:
        return f"{wakes(station, change.woken)}, in front of its equals"
    if call.number == lines.INTERRUPT:
        return kept(line, station) if station.keeps else "nobody wakes"
    if call.number == lines.TICK:
        return ran_out(change, station) + slice_given(change, station)
    if call.number == lines.STOP:
        return stopped(call, change, station)
    return f"{station.name(call.a)} joins the running queue"


def kept(line, station):
    """That an interrupt is kept, from now on or already."""
    since = station.kept[line.call.a]
    return "nobody waits for it, and it is kept" if since == line.place else f"one is kept already, since line {since}"


def slice_given(change, station):
    """Who gave up the slice to whom, if the process that was current has gone behind an equal."""
    before, now = change.caller, station.current
    if 0 in (before, now) or before == now or station.processes[before].priority != station.processes[now].priority:
        return ""
    return f", {station.name(before)} gives the slice to {station.name(now)}"


def runs(change, station):
    """Who is current now."""
    if station.current == 0:
        return "Nobody runs."
    return f"{station.name(station.current)} runs {'on' if station.current == change.caller else 'now'}."


def aged(age):
    """An age as a person says it."""
    return plural(age, "tick") + (" or more" if age == OLDEST else "")


def conversation(b, buffer, station):
    """An open buffer, in short."""
    age = station.age(buffer)
    aging = f"{KEPT}({kept_together(aged(age))})" if age else ""
    return f"{b}{KEPT}{station.name(buffer.owner)}>{station.name(buffer.receiver)}{KEPT}{STANDINGS[buffer.standing]}{aging}"


def conversations(station):
    """The open buffers, in short."""
    count = len(station.opened)
    if not count:
        return "Nothing open."
    shown = ", ".join([conversation(b, station.buffers[b], station) for b in station.opened[:MOST_OPEN]])
    return f"Open: {shown}{f' and {count - MOST_OPEN} more' if count > MOST_OPEN else ''}."


def listed(rows, station):
    """The lines of a listing; a station's own may have a standing that there isn't."""
    return [f"Listed: buffer {row.buffer} of {station.name(row.owner)}, sent to {station.name(row.receiver)}"
            f"{f' {aged(row.age)} ago' if row.age else ''}, {STANDING_WORDS.get(row.standing, f'with a standing of {row.standing}, which there is not')}."
            for row in rows] if rows else []


def outcome(line, change, station):
    """What an answered call asked for, and what came back."""
    if line.answer.number:
        result = refused(line.answer.number, line.call, station)
    else:
        result = came_back(line, change, station)
    return f"{asked(line.call, station)}: {result}."


def told(said, line, change, station, opened=None):
    """An answered call as sentences, the first one long, one more for each buffer listed; the open buffers may be in words
    already."""
    return [f"{said} {runs(change, station)} {opened or conversations(station)}", *listed(line.rows, station)]


def called(entry):
    """What a layout entry's process is called."""
    return plain_name(entry.name) or "its name, in hexadecimal, " + "".join(f"{word:04X}" for word in entry.name)


def entry_parts(entry):
    """A layout entry by itself, wherever it stands."""
    return f"{called(entry)}, priority {entry.priority}, {plural(entry.buffers, 'buffer')}"


def entry_told(number, entry, first):
    """A layout line as a sentence; its buffers begin at the first."""
    last = first + entry.buffers - 1
    if entry.buffers == 0:
        buffers = "no buffers"
    else:
        buffers = f"buffer {first}" if entry.buffers == 1 else f"buffers {first} to {last}"
    return f"Process {number}: {called(entry)}, priority {entry.priority}, {buffers}."


def refusal_told(entries):
    """A refused layout as sentences."""
    reasons = refusal_reasons(entries)
    more = [f"And {len(reasons) - MOST_REASONS} more."] if len(reasons) > MOST_REASONS else []
    return ["The layout is refused with 11 (0B in the replay); no line after it is read.",
            *reasons[:MOST_REASONS], *more]


def wrapped(sentence, first, rest, width=WIDTH):
    """A sentence in lines of some width, with what the first and the other lines begin with."""
    pieces, begin, lead, room = [], 0, first, width - len(first)
    while len(sentence) - begin > room:
        blank = sentence.rfind(" ", begin, begin + room + 1)
        end = blank if blank > begin else begin + max(1, room)
        pieces.append(lead + sentence[begin:end])
        begin, lead, room = end + (blank > begin), rest, width - len(rest)
    pieces.append(lead + sentence[begin:])
    return "\n".join(pieces).replace(KEPT, " ")


def row(place, caller, sentences, width=WIDTH):
    """A line of the log under the columns of the heading; further sentences begin on lines of their own."""
    head = f"{place:>5}  {caller:<6}  "
    indent = " " * len(head)
    if len(sentences) == 1:
        return wrapped(sentences[0], head, indent, width)
    first, *others = sentences
    return "\n".join([wrapped(first, head, indent, width),
                      *(wrapped(other, indent + "  ", indent + "    ", width) for other in others)])
