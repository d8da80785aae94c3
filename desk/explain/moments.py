"""A run as moments: each answered call with its time, and what it changed in the processes, their queues and the conversations.

Time is the number of ticks so far; the calls between two ticks share the time between them evenly. Before the first call all processes
are stopped and all queues empty.
"""

from collections import Counter, namedtuple

from desk.explain.looks import STATE_LOOKS
from desk.explain.timeline import doing, title_of
from desk.log import lines
from desk.log.refusals import meaning_of
from desk.log.station import ANSWER, ANSWERED, FREE, HELD, QUEUED

STATES = tuple(STATE_LOOKS)  # the looks by which a process's state is called, in an order that never changes

# What a process does: its look, the words for it, and how many messages and answers stand in its queue.
Doing = namedtuple("Doing", "look words queue")
# A message or an answer on its way: whether it leaves or comes, which it is, the process at whose end, the buffer, and how many times the
# buffer was sent so far.
Way = namedtuple("Way", "leaves what process buffer turn")
# An answered call: the ticks before it and its place among those calls, its line and title, who made it (0 someone outside), the refusal's
# words or None, the processes that do something else from now on, and what went and came.
Moment = namedtuple("Moment", "ticks order line title caller refusal changed ways")

AT_FIRST = Doing(STATES[-1], STATE_LOOKS["stopped"], 0)


class Moments:
    """The moments of a run, as they come."""

    def __init__(self):
        self.names, self.moments, self.now, self.turns = [], [], {}, Counter()
        self.counts = Counter({0: 1})  # how many calls there are at so many ticks; what was before the first counts as one

    def note(self, line, change, station):
        """One more answered call."""
        if not self.names:
            self.names = [process.name for process in station.processes.values()]
            self.now = dict.fromkeys(station.processes, AT_FIRST)
        doings = doings_of(station)
        changed = {p: doing for p, doing in doings.items() if doing != self.now[p]}
        self.now = doings
        number = line.answer.number
        caller = change.caller if line.call.number in lines.OF_CURRENT else 0
        ways = [] if number else list(self.ways(line, change, station))
        self.moments.append(Moment(station.ticks, self.counts[station.ticks], line.place, title_of(line.call, station), caller,
                                   meaning_of(number) if number else None, changed, ways))
        self.counts[station.ticks] += 1

    def ways(self, line, change, station):
        """The messages and answers that leave somebody or come to somebody by a call."""
        for b, before, after in change.moved:
            buffer = station.buffers[b]
            if after == QUEUED:
                self.turns[b] += 1
                yield Way(True, "message", buffer.owner, b, self.turns[b])
            elif (before, after) == (QUEUED, HELD):
                yield Way(False, "message", change.caller, b, self.turns[b])
            elif after == ANSWERED:
                yield Way(True, "answer", buffer.receiver, b, self.turns[b])
            elif (before, after) == (ANSWERED, FREE) and line.answer.kind == ANSWER and line.call.number != lines.CLEAN:
                yield Way(False, "answer", change.caller, b, self.turns[b])

    def most(self):
        """The most calls that there are between two ticks."""
        return max(self.counts.values(), default=0)

    def end(self):
        """The ticks at which the run is over."""
        return self.moments[-1].ticks + 1


def doings_of(station):
    """What each process does."""
    queues = Counter(buffer.keeper() for _, buffer in station.open_buffers() if buffer.standing in (QUEUED, ANSWERED))
    found = {}
    for p in station.processes:
        look, labels = doing(p, station)
        words = STATE_LOOKS[look] + (f": {labels[0]}" if look in ("answer", "interrupt", "semaphore") else "")
        found[p] = Doing(look, words, queues[p])
    return found
