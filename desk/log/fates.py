"""What became of each buffer, read by the nine lines of docs/MONITOR.md, 14, from a station's own answers alone.

The station may be wrong. What its answers show that no log of the monitor shows is noted as a finding: a buffer is lost, somebody
waits for an answer already withdrawn, a stranger is woken, or the like; and the reading goes on.
"""

from collections import namedtuple

from desk.log import lines
from desk.log.refusals import STATES, is_wrong_buffer, plural
from desk.log.station import ANSWER, ANSWERED, FOR_ANSWER, FREE, HELD, MESSAGE, NO_WALK, QUEUED, RUNNING, STANDINGS, Change

# What was found: the line of the call, which fault it is, and the rest of the sentence.
Finding = namedtuple("Finding", "place fault words")
LOST, WITHDRAWN, STRANGER = "a buffer is lost", "waits for an answer already withdrawn", "a stranger is woken"
FAULTS = (LOST, WITHDRAWN, STRANGER)  # the three that a station mustn't have
THERE, ELSEWHERE, LISTED, CANNOT = ("waits for an answer that is there", "a buffer isn't where the log leaves it",
                                    "a listing isn't what the log leaves open", "an answer can't be")
NO_SEND, WRONG_BUFFER = 5, 6
NAMING_PROCESS = (lines.SEND, lines.START, lines.STOP, lines.CLEAN, lines.LIST)


def sentence_of(finding):
    """A finding as a sentence, without its end."""
    return f"{finding.fault[0].upper()}{finding.fault[1:]}: {finding.words}"


class Fates:
    """A station that is read, and what was found so far; of an owner whose buffer was answered by one that doesn't hold it, the line; and
    of each who has woken by an answer and not run since, whether a clean gave it, and the line."""

    def __init__(self, station):
        self.station, self.found, self.suspects, self.roused = station, [], {}, {}

    def take(self, line):
        """Reads one more answered call; gives what it brought about, and what was found in it."""
        known, station = len(self.found), self.station
        cannot = impossible(line, station)
        if cannot:
            self.note(line, CANNOT, cannot)
            station.current = line.answer.current if line.answer.current in station.processes else station.current
            change = Change(station.current, [], [], NO_WALK)
        else:
            self.look_before(line)
            change = station.take(line.call, line.answer, line.place)
            self.look_after(line, change)
        return change, self.found[known:]

    def note(self, line, fault, words):
        """One more finding."""
        self.found.append(Finding(line.place, fault, words))

    def look_before(self, line):
        """What an answer shows beside the station as the log leaves it before the call."""
        call, answer = line.call, line.answer
        look = {lines.SEND: self.look_send, lines.WAIT_ANSWER: self.look_wait, lines.WAIT_EVENT: self.look_taken,
                lines.SEND_ANSWER: self.look_answer, lines.LIST: self.look_listing}.get(call.number)
        if look and answer.number == 0:
            look(line)
        elif call.number == lines.SEND and answer.number == NO_SEND:
            self.look_refused(line)
        elif call.number in (lines.WAIT_ANSWER, lines.SEND_ANSWER) and answer.number == WRONG_BUFFER:
            self.look_forgotten(line)

    def look_send(self, line):
        """A send goes out in a buffer that is free and the caller's own."""
        station, b = self.station, line.answer.buffer
        buffer, caller = station.buffers[b], station.running()
        if buffer.standing != FREE:
            self.note(line, LOST, f"{caller} sends in buffer {b}, which is still open: {self.message(buffer)}, is lost")
        elif buffer.owner != station.current:
            self.note(line, ELSEWHERE, f"{caller} sends in buffer {b}, which is {station.name(buffer.owner)}'s")

    def message(self, buffer):
        """The message in an open buffer, and where it stands."""
        sent = f"in line {buffer.place}" if buffer.place else "in no line"
        return (f"what {self.station.name(buffer.owner)} sent to {self.station.name(buffer.receiver)} {sent}, "
                f"{STANDINGS[buffer.standing]} since line {buffer.since}")

    def look_refused(self, line):
        """A send is refused with 5 only where no own buffer is free."""
        station = self.station
        free = station.free_of(station.current) if station.current else []
        if free:
            owned = len(station.processes[station.current].owns)
            self.note(line, LOST, f"a send is refused for want of a buffer, and of the {plural(owned, 'buffer')} that {station.running()} owns "
                                  f"the log leaves {len(free)} free: {', '.join(map(str, free))}")

    def look_forgotten(self, line):
        """A wait or an answer is refused with 6 only where the caller has no such buffer, or nothing can come of it."""
        station, b = self.station, line.call.a
        if station.current and not is_wrong_buffer(line.call, station):
            what = "wait for the answer" if line.call.number == lines.WAIT_ANSWER else "answer"
            self.note(line, LOST, f"{station.running()}'s {what} to buffer {b} is refused, and by the log it has {self.message(station.buffers[b])}")

    def look_wait(self, line):
        """Whoever waits for an answer, waits in an own buffer for one that can still come."""
        station, b = self.station, line.call.a
        buffer, waits = station.buffers[b], f"{station.running()} waits for the answer to buffer {b}"
        if line.answer.kind:
            self.look_taken(line)
        elif buffer.owner != station.current:
            self.note(line, ELSEWHERE, f"{waits}, which is {station.name(buffer.owner)}'s")
        elif buffer.standing == ANSWERED and not buffer.cleaned:
            self.note(line, THERE, f"{waits}, which was answered in line {buffer.since}")
        elif buffer.standing not in (QUEUED, HELD):
            self.note(line, WITHDRAWN, f"{waits}, {self.withdrawn(buffer)}")

    def withdrawn(self, buffer):
        """Why no answer comes in a buffer that is free, or whose owner or receiver was cleaned."""
        if buffer.standing == FREE:
            return self.where(buffer)
        cleaned = buffer.cleaned if buffer.standing == ANSWERED else buffer.owner
        return f"which was withdrawn in line {buffer.since}, when {self.station.name(cleaned)} was cleaned"

    def look_taken(self, line):
        """A message that is taken is queued at the caller; an answer that is collected is the caller's own."""
        station, b, kind = self.station, line.answer.buffer, line.answer.kind
        if kind not in (MESSAGE, ANSWER):
            self.look_left(line)
            return
        buffer = station.buffers[b]
        whose, standing = (buffer.receiver, QUEUED) if kind == MESSAGE else (buffer.owner, ANSWERED)
        if (whose, buffer.standing) != (station.current, standing):
            what = "a message" if kind == MESSAGE else "an answer"
            self.note(line, ELSEWHERE, f"{station.running()} takes {what} in buffer {b}, {self.where(buffer)}")
        if kind == MESSAGE and buffer.standing == FREE:
            buffer.receiver, buffer.place = station.current, None

    def look_left(self, line):
        """Nobody is put to wait for an event while an answer that a clean has given lies ready."""
        station = self.station
        for b, buffer in station.open_buffers() if line.call.number == lines.WAIT_EVENT and not line.answer.kind else ():
            if (buffer.owner, buffer.standing) == (station.current, ANSWERED) and buffer.cleaned:
                self.note(line, WITHDRAWN, f"{station.running()} waits for an event, and buffer {b} lies ready, {self.withdrawn(buffer)}")
                return

    def where(self, buffer):
        """Where a buffer is, by the log."""
        if buffer.standing == FREE:
            return f"which is free since {f'line {buffer.since}' if buffer.since else 'the layout'}"
        return f"which has {self.message(buffer)}"

    def look_answer(self, line):
        """A buffer is answered by its holder; if by another, its owner is woken by a stranger."""
        station, b = self.station, line.call.a
        if not is_wrong_buffer(line.call, station):
            return
        buffer, caller = station.buffers[b], station.running()
        owner, wakes = station.name(buffer.owner), line.answer.current == buffer.owner != station.current
        self.suspects[buffer.owner] = line.place
        words = f"{caller} answers buffer {b}, which it doesn't hold: {self.message(buffer) if buffer.standing else 'it is free'}"
        self.note(line, STRANGER if wakes else ELSEWHERE, f"{words}; {f'{owner} wakes by it' if wakes else f'it is {owner} that would wake by it'}")
        if wakes and station.processes[buffer.owner].state != RUNNING:
            station.run(buffer.owner)

    def look_listing(self, line):
        """A listing shows what the log leaves open with the process, and nothing else."""
        station, p = self.station, line.call.a
        shown = {row.buffer: row for row in line.rows}
        opened = {b: buffer for b, buffer in station.open_buffers() if p in (buffer.owner, buffer.receiver)}
        for b in sorted(set(opened) - set(shown)):
            self.note(line, LOST, f"the listing of {station.name(p)} leaves out buffer {b}: {self.message(opened[b])}")
        for b in sorted(set(shown) - set(opened)):
            where = self.where(station.buffers[b]) if b in station.buffers else "which there isn't"
            self.note(line, LISTED, f"the listing of {station.name(p)} shows buffer {b}, {where}")
        for b in sorted(set(shown) & set(opened)):
            due = lines.Row(b, opened[b].owner, opened[b].receiver, opened[b].standing, station.age(opened[b]))
            other = [part for part in lines.Row._fields if getattr(shown[b], part) != getattr(due, part)]
            if other:
                parts = ", ".join(f"{part} {getattr(shown[b], part)} for {getattr(due, part)}" for part in other)
                self.note(line, LISTED, f"the listing of {station.name(p)} shows buffer {b} with {parts}")

    def look_after(self, line, change):
        """What an answer shows beside the station as the log leaves it after the call: who should have woken, and who runs."""
        station, now = self.station, self.station.current
        if line.answer.number:
            return
        if line.call.number == lines.CLEAN and line.answer.kind < len(change.moved):
            moved = ", ".join(str(b) for b, _, _ in change.moved)
            self.note(line, LOST, f"the clean of {station.name(line.call.a)} changes {plural(line.answer.kind, 'buffer')}, and by the log "
                                  f"{len(change.moved)}: {moved}")
        if line.call.number in (lines.SEND_ANSWER, lines.CLEAN):
            self.roused.update({p: (line.call.number == lines.CLEAN, line.place) for p in change.woken})
        self.look_roused(line)
        if now and station.processes[now].state != RUNNING:
            self.note_stranger(line, now)

    def look_roused(self, line):
        """Whoever has woken by an answer runs before those of a lower priority do; each that doesn't is noted once."""
        station, now = self.station, self.station.current
        runs = station.processes[now].priority if now else 0
        for p in list(self.roused):
            if p == now or station.processes[p].state != RUNNING:
                del self.roused[p]
            elif station.processes[p].priority > runs:
                self.note_asleep(line, p, *self.roused.pop(p))

    def note_asleep(self, line, p, by_clean, place):
        """A process that should have woken, and that is of a higher priority than the one that runs."""
        fault, why = (WITHDRAWN, "withdrawn") if by_clean else (THERE, "given")
        when = "is {} in this line" if place == line.place else f"was {{}} in line {place}" if place else "was {} before"
        self.note(line, fault, f"{self.station.name(p)} waits on, and its answer {when.format(why)}")

    def note_stranger(self, line, p):
        """A process that runs, and that nothing in the log has woken."""
        station, process = self.station, self.station.processes[p]
        since = f"since line {process.since[1]}" if process.since[1] else "since the layout"
        thing = f" to buffer {process.thing}" if process.state == FOR_ANSWER else ""
        suspect = f"; line {self.suspects[p]} answered a buffer of its that wasn't held" if p in self.suspects else ""
        self.note(line, STRANGER, f"{process.name} runs, which by the log {STATES[process.state]}{thing} {since}{suspect}")
        station.run(p)


def impossible(line, station):
    """What an accepted call or its answer names that there isn't, or None."""
    call, answer = line.call, line.answer
    if answer.number:
        return None
    if not lines.LAYOUT < call.number <= lines.RAISE:
        return f"there is no call {call.number:02X}, and it is accepted"
    if call.number in lines.OF_CURRENT and not station.current:
        return "nobody runs who could make the call, and it is accepted"
    for kind, records, asked in (("process", station.processes, call.number in NAMING_PROCESS),
                                 ("buffer", station.buffers, call.number in (lines.WAIT_ANSWER, lines.SEND_ANSWER)),
                                 ("semaphore", station.semaphores, call.number in (lines.LOWER, lines.RAISE))):
        if asked and call.a not in records:
            return f"there is no {kind} {call.a}, and the call is accepted"
    named = call.number == lines.SEND or call.number in (lines.WAIT_ANSWER, lines.WAIT_EVENT) and answer.kind in (MESSAGE, ANSWER)
    if (named or answer.buffer) and answer.buffer not in station.buffers:
        return f"it names buffer {answer.buffer}, which there isn't"
    woken = answer.kind if call.number == lines.INTERRUPT else 0
    missing = next((p for p in (answer.current, woken) if p and p not in station.processes), None)
    return f"it names process {missing}, which there isn't" if missing else None
