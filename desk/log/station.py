"""The reading of a log, docs/MONITOR.md, 14: where each buffer stands, and what each process does, from calls and answers alone.

Nothing here decides what the monitor does: current, kinds and buffers are taken from the answers. Only accepted calls
count. The buffers move by its nine lines, and their ages are ticks counted from the send; a process waits when
its call says so and wakes as 'Waking' says. Semaphores begin with the counters of the layout, and in the second edition
an interrupt that nobody waits for is kept.
"""

from bisect import bisect_left, insort
from collections import namedtuple

from desk.log import lines
from desk.log.layout import PLAIN, numbered, own_buffers, shown_name

FREE, QUEUED, HELD, ANSWERED, ORPHANED = range(5)
STANDINGS = ("free", "queued", "held", "answered", "orphaned")
STOPPED, RUNNING, FOR_EVENT, FOR_ANSWER, FOR_INTERRUPT, FOR_SEMAPHORE = range(6)
WAITING = (FOR_EVENT, FOR_ANSWER, FOR_INTERRUPT, FOR_SEMAPHORE)
MESSAGE, ANSWER, KEPT_INTERRUPT = 1, 2, 3  # the kinds that calls 02, 03 and, in the second edition, 05 come back with
OLDEST = 65535          # an age stays there


class Buffer:
    """One buffer: who owns it, who received it, where it stands and since which line, how many ticks the log had at its send
    and in which line that was, and which receiver's clean has answered it, if one has."""

    def __init__(self, owner):
        self.owner, self.receiver, self.standing, self.since = owner, 0, FREE, None
        self.sent, self.place, self.cleaned = 0, None, 0

    def send(self, receiver, ticks, place):
        """Sent to a receiver, at so many ticks and in a line of the log."""
        self.receiver, self.sent, self.place, self.cleaned = receiver, ticks, place, 0

    def keeper(self):
        """The process a buffer that is open lies with: an answer with its owner, any other with its receiver."""
        return self.owner if self.standing == ANSWERED else self.receiver


class Process:
    """One process: its name, buffers and priority, what it does, for what and how long it waits, and since when: the ticks
    that the log had then, and the line."""

    def __init__(self, name, owns, priority):
        self.name, self.owns, self.priority = name, owns, priority
        self.enter(STOPPED)

    def enter(self, state, thing=None, delay=0, since=(0, None)):
        """Into a state; the thing waited for is a buffer in FOR_ANSWER, a device in FOR_INTERRUPT and a semaphore in
        FOR_SEMAPHORE."""
        self.state, self.thing, self.delay, self.since = state, thing, delay, since


class Semaphore:
    """One semaphore: its counter, and who waits for it, the longest waiter first."""

    def __init__(self, counter):
        self.counter, self.waiters = counter, []


# What a call brought about: who was current before, who woke, each buffer moved with its standing before and after, how far
# those walked that it put into the running queue, the waits that ran out (who waited, in which state and for what), and
# of the process that it stops or cleans whether it was stopped already and which semaphore it waited for, if one.
Change = namedtuple("Change", "caller woken moved walk ran_out stopped left", defaults=((), False, None))

# How many records each that woke or was started passed, in order; and how many the process that a tick moved, or None.
Walk = namedtuple("Walk", "passed moved")
NO_WALK = Walk([], None)
WAITS = (lines.WAIT_ANSWER, lines.WAIT_EVENT, lines.WAIT_INTERRUPT)


class Station:
    """The processes, buffers, semaphores and kept interrupts of one layout, as the log so far leaves them."""

    def __init__(self, entries, outfit=PLAIN):
        owned = own_buffers(entries)
        self.processes = {p: Process(shown_name(p, entry.name), owned[p], entry.priority) for p, entry in enumerate(entries, 1)}
        self.buffers = {b: Buffer(p) for p in owned for b in owned[p]}
        self.semaphores = {s: Semaphore(counter) for s, counter in enumerate(outfit.counters, 1)}
        self.keeps = outfit.edition == 1
        self.kept = {}        # in the second edition, the devices that an interrupt is kept for, each with its line
        self.opened = []      # the numbers of the buffers that aren't free, rising
        self.priorities = []  # those of the processes in the running queue, rising
        self.current, self.ticks, self.place = 0, 0, None
        self.moves = 0        # grows whenever the open buffers or their ages may be others than before

    def name(self, number):
        """What a process is called, or the number where there is none."""
        return self.processes[number].name if number in self.processes else numbered(number)

    def running(self):
        """Who is current."""
        return self.name(self.current) if self.current else "nobody"

    def open_buffers(self):
        """The buffers that aren't free, with their numbers, rising."""
        return [(b, self.buffers[b]) for b in self.opened]

    def age(self, buffer):
        """How many ticks the log has had since an open buffer was sent, or the oldest age if more."""
        return min(self.ticks - buffer.sent, OLDEST)

    def queue_length(self, number):
        """How many messages and answers stand in a process's event queue."""
        return sum(buffer.standing in (QUEUED, ANSWERED) and buffer.keeper() == number for buffer in self.buffers.values())

    def sent(self, number):
        """How many conversations a process has open as sender, orphaned ones counted."""
        return sum(self.buffers[b].standing != FREE for b in self.processes[number].owns)

    def free_of(self, number):
        """The free buffers of a process, rising."""
        return [b for b in self.processes[number].owns if self.buffers[b].standing == FREE]

    def waiter(self, device):
        """The process that waits for a device, or 0."""
        waiting = (p for p, process in self.processes.items()
                   if process.state == FOR_INTERRUPT and process.thing == device)
        return next(waiting, 0)

    def holder(self, number):
        """The process whose answer a process waits for, or 0."""
        process = self.processes[number]
        return self.buffers[process.thing].receiver if process.state == FOR_ANSWER else 0

    def take(self, call, answer, place=None):
        """Reads one more call with its answer, which stand in that line of the log; a refused one moves nothing."""
        caller = self.current
        if answer.number != 0:
            return Change(caller, [], [], NO_WALK)
        self.place = place
        if call.number == lines.SEND:
            self.buffers[answer.buffer].send(call.a, self.ticks, place)
        elif call.number == lines.TICK:
            return self.tick(answer)
        moved = self.move_buffers(call, answer)
        stopped = call.number == lines.CLEAN and self.processes[call.a].state == STOPPED
        left = self.awaited(call.a) if call.number in (lines.STOP, lines.CLEAN) else None
        woken, passed = self.move_processes(call, answer, moved)
        self.current = answer.current
        return Change(caller, woken, moved, Walk(passed, None), (), stopped, left)

    def move_buffers(self, call, answer):
        """Each buffer by itself; returns those that moved, rising, with their standings before and after."""
        moved = []
        for b in self.touched(call, answer):
            buffer = self.buffers[b]
            before, after = buffer.standing, standing_after(b, buffer, call, answer)
            if before != after:
                moved.append((b, before, after))
                self.move_buffer(b, buffer, after)
                if call.number == lines.CLEAN and after == ANSWERED:
                    buffer.cleaned = call.a
        return moved

    def touched(self, call, answer):
        """The buffers that an accepted call may move: a clean any that is open, the others the one that is named."""
        if call.number == lines.CLEAN:
            return tuple(self.opened)
        named = call.a if call.number == lines.SEND_ANSWER else answer.buffer
        return (named,) if named else ()

    def move_buffer(self, b, buffer, after):
        """Puts a buffer where it stands from now on."""
        if buffer.standing == FREE:
            insort(self.opened, b)
        if after == FREE:
            self.opened.remove(b)
            buffer.receiver = 0
        buffer.standing, buffer.since = after, self.place
        self.moves += 1

    def move_processes(self, call, answer, moved):
        """Puts to wait, stops, starts and wakes; returns those woken in the order of their waking, and how many records
        each that entered the running queue passed."""
        number = call.number
        if number in WAITS and answer.kind == 0:
            self.put_to_wait(call)
        elif number == lines.LOWER:
            self.lower(call.a)
        elif number == lines.RAISE:
            woken = self.raised(call.a)
            return woken, [self.run(p) for p in woken]
        elif number in (lines.STOP, lines.CLEAN) and self.processes[call.a].state != STOPPED:
            self.stop(call.a)
        elif number == lines.START:
            return [], [self.run(call.a)]
        elif number == lines.INTERRUPT and answer.kind:
            return [answer.kind], [self.run(answer.kind, in_front=True)]
        elif number == lines.INTERRUPT and self.keeps:
            self.kept.setdefault(call.a, self.place)
        elif number == lines.WAIT_INTERRUPT:
            self.kept.pop(call.a, None)
        woken = list(dict.fromkeys(self.wakers(moved))) if moved else []
        return woken, [self.run(p) for p in woken]

    def put_to_wait(self, call):
        """The caller waits from now on."""
        if call.number == lines.WAIT_ANSWER:
            self.enter(self.current, FOR_ANSWER, call.a)
        elif call.number == lines.WAIT_EVENT:
            self.enter(self.current, FOR_EVENT, None, call.a)
        else:
            self.enter(self.current, FOR_INTERRUPT, call.a, call.b)

    def lower(self, s):
        """The caller lowers a semaphore, and waits, last, where that leaves its counter below zero."""
        semaphore = self.semaphores[s]
        semaphore.counter -= 1
        if semaphore.counter < 0:
            semaphore.waiters.append(self.current)
            self.enter(self.current, FOR_SEMAPHORE, s)

    def awaited(self, p):
        """The semaphore that a process waits for, or None."""
        process = self.processes[p]
        return process.thing if process.state == FOR_SEMAPHORE else None

    def raised(self, s):
        """A semaphore counts one more; gives its longest waiter, which waits no longer, or none."""
        semaphore = self.semaphores[s]
        semaphore.counter += 1
        return [semaphore.waiters.pop(0)] if semaphore.waiters else []

    def stop(self, p):
        """Process p is stopped; if it waited for a semaphore, that counts one more."""
        s = self.awaited(p)
        if s:
            self.semaphores[s].waiters.remove(p)
            self.semaphores[s].counter += 1
        self.enter(p, STOPPED)

    def enter(self, p, state, thing=None, delay=0):
        """Process p enters a state."""
        process = self.processes[p]
        if process.state == RUNNING:
            self.priorities.remove(process.priority)
        if state == RUNNING:
            insort(self.priorities, process.priority)
        process.enter(state, thing, delay, (self.ticks, self.place))

    def run(self, p, in_front=False):
        """Process p runs from now on, in front of its equals or behind them; gives how many records it passed."""
        passed = self.passed_by(p, in_front)
        self.enter(p, RUNNING)
        return passed

    def passed_by(self, p, in_front=False):
        """How many running processes p, which isn't counted, passes on its way in: those of its own priority or a higher one,
        in front of its equals those of a higher one only."""
        process = self.processes[p]
        ahead = len(self.priorities) - bisect_left(self.priorities, process.priority + in_front)
        return ahead - (process.state == RUNNING)

    def wakers(self, moved):
        """The processes that buffers wake: by a message or an answer that came for them."""
        for b, _, after in moved:
            buffer = self.buffers[b]
            if after == QUEUED and self.processes[buffer.receiver].state == FOR_EVENT:
                yield buffer.receiver
            owner = self.processes[buffer.owner]
            if after == ANSWERED and (owner.state == FOR_EVENT or owner.state == FOR_ANSWER and owner.thing == b):
                yield buffer.owner

    def tick(self, answer):
        """Each delay falls by one; those that came to their end wake, and the process that was current goes behind its
        equals."""
        caller = self.current
        self.ticks += 1
        self.moves += 1
        waiting = [(p, process) for p, process in self.processes.items() if process.delay > 0]
        for _, process in waiting:
            process.delay -= 1
        ran_out = [(p, process.state, process.thing) for p, process in waiting if process.delay == 0]
        woken = [p for p, _, _ in ran_out]
        passed = [self.run(p) for p in woken]
        self.current = answer.current
        return Change(caller, woken, [], Walk(passed, self.passed_by(caller) if caller else None), ran_out)


def standing_after(b, buffer, call, answer):
    """Where buffer b stands after an accepted call: the nine lines of docs/MONITOR.md, 14, in their order."""
    standing = buffer.standing
    names_buffer = answer.buffer == b
    if call.number == lines.SEND and names_buffer:
        return QUEUED
    if call.number == lines.WAIT_EVENT and names_buffer and answer.kind == MESSAGE:
        return HELD
    if call.number in (lines.WAIT_ANSWER, lines.WAIT_EVENT) and names_buffer and answer.kind == ANSWER:
        return FREE
    if call.number == lines.SEND_ANSWER and call.a == b:
        return {HELD: ANSWERED, ORPHANED: FREE}.get(standing, standing)
    if call.number == lines.CLEAN and call.a == buffer.owner:
        return {QUEUED: FREE, ANSWERED: FREE, HELD: ORPHANED}.get(standing, standing)
    if call.number == lines.CLEAN and call.a == buffer.receiver:
        return {QUEUED: ANSWERED, HELD: ANSWERED, ORPHANED: FREE}.get(standing, standing)
    return standing
