"""The stretches of a run: for each process what it did, for each buffer where it lay, from which column to which.

A column is a call; what stands in it is how the call left things. Lines that are no calls have no column.
"""

from collections import namedtuple

from desk.explain.rings import way
from desk.log import lines
from desk.log.refusals import plural
from desk.log.station import ANSWERED, FOR_ANSWER, FOR_EVENT, FOR_INTERRUPT, FOR_SEMAPHORE, FREE, QUEUED, RUNNING, STANDINGS

# A column: the line of the log, the call with its parts, the number of refusal or 0, who was current when the call came
# (or 0), whether that one makes the call, from whom to whom messages and answers went, whose processes it is about, and how
# many calls stand between it and the column before that aren't shown.
Column = namedtuple("Column", "place title refusal current called went who passed")
# A stretch of columns, from the first to the one before the end, with what held in it: the row of a process, the look
# it has in the picture, and its labels, each shorter than the one before.
Stretch = namedtuple("Stretch", "process first end look labels")

STOPPED = ("stopped", ())
NAMING = (lines.SEND, lines.START, lines.STOP, lines.CLEAN, lines.LIST)  # those whose a is a process


def doing(p, station):
    """How a process looks, and the labels that say more."""
    process = station.processes[p]
    if process.state == RUNNING:
        return ("current", ("runs",)) if p == station.current else ("ready", ("ready",))
    return {
        FOR_EVENT: ("event", ("event",)),
        FOR_ANSWER: ("answer", (f"answer to {process.thing}", f"ans {process.thing}")),
        FOR_INTERRUPT: ("interrupt", (f"device {process.thing}", f"dev {process.thing}")),
        FOR_SEMAPHORE: ("semaphore", (f"semaphore {process.thing}", f"sem {process.thing}")),
    }.get(process.state, STOPPED)


def lying(b, buffer, station):
    """With whom a buffer lies, how it looks and its labels; None where it is free."""
    if buffer.standing == FREE:
        return None
    return buffer.keeper(), STANDINGS[buffer.standing], (f"{b} {station.name(buffer.owner)}>{station.name(buffer.receiver)}", str(b))


def limited(delay):
    """A delay behind what it limits."""
    return f", {plural(delay, 'tick')}" if delay else ""


def title_of(call, station):
    """A call with its parts, in short."""
    name, buffer = station.name(call.a), station.buffers.get(call.a)
    return {
        lines.SEND: f"send > {name}", lines.WAIT_ANSWER: f"wait answer {call.a}", lines.WAIT_EVENT: f"wait event{limited(call.a)}",
        lines.SEND_ANSWER: f"answer {call.a}{f' > {station.name(buffer.owner)}' if buffer else ''}",
        lines.WAIT_INTERRUPT: f"wait device {call.a}{limited(call.b)}", lines.START: f"start {name}", lines.STOP: f"stop {name}",
        lines.CLEAN: f"clean {name}", lines.TICK: "tick", lines.INTERRUPT: f"interrupt {call.a}", lines.LIST: f"list {name}",
        lines.LOWER: f"lower {call.a}", lines.RAISE: f"raise {call.a}",
    }.get(call.number, f"call {call.number:02X}")


def way_of(buffer):
    """From whom to whom a message or an answer went."""
    return (buffer.owner, buffer.receiver) if buffer.standing == QUEUED else (buffer.receiver, buffer.owner)


# A ring of waiting processes: the column that closed it, the one that ended it or None, and its way round.
Round = namedtuple("Round", "first end way")


class Timeline:
    """The columns of a run, and its stretches: of processes, of buffers at the process they lay with, and of rings."""

    def __init__(self):
        self.rounds, self.before = {}, {}
        self.names = []
        self.columns = []
        self.states, self.buffers = [], []
        self.open_states, self.open_buffers = {}, {}
        self.current, self.is_shown, self.calls, self.passed = 0, True, 0, 0

    def note(self, line, station, shown=True):
        """An answered call: one more column, where it is shown. What changed in it is told by how the call before left things."""
        if not self.names:
            self.names = [process.name for process in station.processes.values()]
            self.open_states = {p: (0, (p, *STOPPED)) for p in station.processes}
            self.before = {("process", p): (p, *STOPPED) for p in station.processes}
        now = {("process", p): (p, *doing(p, station)) for p in station.processes}
        now.update({("buffer", b): lying(b, buffer, station) for b, buffer in station.buffers.items()})
        changed = [p for p in station.processes if now["process", p] != self.before["process", p]]
        moved = [buffer for b, buffer in station.buffers.items() if now["buffer", b] != self.before.get(("buffer", b))]
        self.is_shown, self.calls = shown, self.calls + 1
        self.passed += not shown
        if shown:
            self.show(now)
            self.add_column(line, station, changed, moved)
        self.before, self.current = now, station.current

    def show(self, now):
        """Goes on with every stretch in one more column."""
        for (kind, number), held in now.items():
            opened, closed = (self.open_states, self.states) if kind == "process" else (self.open_buffers, self.buffers)
            self.go_on(opened, closed, len(self.columns), number, held)

    def add_column(self, line, station, changed, moved):
        """One more column: the call, from whom to whom things went, and whose processes it is about."""
        call = line.call
        who = {self.current, *changed, *(p for buffer in moved for p in (buffer.owner, buffer.receiver))}
        if call.number in NAMING:
            who.add(call.a)
        went = [way_of(buffer) for buffer in moved if buffer.standing in (QUEUED, ANSWERED)]
        self.columns.append(Column(line.place, title_of(call, station), line.answer.number, self.current, call.number in lines.OF_CURRENT,
                                   went, sorted(p for p in who if p in station.processes), self.passed))
        self.passed = 0

    def note_rings(self, closed, ended, station):
        """The rings that a call closed, and those that it ended: they are drawn from its column on, or from the next that is shown."""
        at = max(0, len(self.columns) - 1) if self.is_shown else len(self.columns)
        for ring in closed:
            self.rounds[ring.processes, ring.closed] = Round(at, None, way(ring, station))
        for ring in ended:
            key = ring.processes, ring.closed
            self.rounds[key] = self.rounds[key]._replace(end=at)

    def go_on(self, opened, closed, at, key, now):
        """Closes the stretch of a process or buffer at a column where something else holds, and opens the next."""
        first, before = opened.get(key, (at, None))
        if before != now:
            if before is not None and first < at:
                closed.append(Stretch(before[0], first, at, *before[1:]))
            opened[key] = (at, now)

    def stretches(self):
        """All stretches of processes and all of buffers, those that still last included."""
        end = len(self.columns)
        lasting = [[Stretch(now[0], first, end, *now[1:]) for first, now in opened.values() if now]
                   for opened in (self.open_states, self.open_buffers)]
        return self.states + lasting[0], self.buffers + lasting[1]


def stays(stretches):
    """The stretches of one process's buffers, those of a buffer that follow on each other together."""
    joined = {}
    for stretch in sorted(stretches, key=lambda stretch: stretch.first):
        chains = joined.setdefault(stretch.labels[-1], [])
        if chains and chains[-1][-1].end == stretch.first:
            chains[-1].append(stretch)
        else:
            chains.append([stretch])
    return sorted((chain for chains in joined.values() for chain in chains), key=lambda chain: chain[0].first)


def lanes(stretches):
    """The stretches of one process's buffers with a lane each, so that no two overlap; and how many lanes it takes."""
    ends, placed = [], []
    for chain in stays(stretches):
        lane = next((i for i, end in enumerate(ends) if end <= chain[0].first), len(ends))
        ends[lane:lane + 1] = [chain[-1].end]
        placed += [(stretch, lane) for stretch in chain]
    return placed, len(ends)
