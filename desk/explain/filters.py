"""Which lines of a log are told: the refused ones, those of a process, of a buffer, or between two places; or none at all.

The station is followed through all lines, told or not. Several filters hold together; several processes, or several
buffers, are each as good as the other.
"""

from desk.log import lines
from desk.log.standard import CannotGoOn

NAMING_PROCESS = (lines.SEND, lines.START, lines.STOP, lines.CLEAN, lines.LIST)  # calls whose a is a process
NAMING_BUFFER = (lines.WAIT_ANSWER, lines.SEND_ANSWER)  # calls whose a is a buffer


class Filter:
    """What is asked for: refused calls only, the names of processes, the numbers of buffers, and the first and last place."""

    def __init__(self, refused=False, names=(), buffers=(), places=None):
        self.refused, self.names, self.buffers = refused, tuple(names), frozenset(buffers)
        self.first, self.last = places or (1, None)
        self.processes = frozenset()

    def borders(self):
        """The places where what is told begins, and where it has ended."""
        return (self.first, self.last and self.last + 1)

    def settle(self, station):
        """Takes up a station once it is laid out; refuses what it doesn't have."""
        numbers = {process.name: p for p, process in station.processes.items()}
        for name in self.names:
            if name not in numbers:
                raise CannotGoOn(f"the log has no process '{name}'; it lays out {', '.join(numbers)}.")
        for b in sorted(self.buffers - set(station.buffers)):
            has = f"buffers 1 to {len(station.buffers)}" if station.buffers else "no buffers"
            raise CannotGoOn(f"the log has no buffer {b}; it lays out {has}.")
        self.processes = frozenset(numbers[name] for name in self.names)

    def is_place(self, place):
        """Whether a place lies between the two."""
        return place >= self.first and (self.last is None or place <= self.last)

    def tells_fault(self, line):
        """Whether a line that is no call is told."""
        return self.is_place(line.place) and not (self.refused or self.names or self.buffers)

    def tells_entry(self, line, name, owned):
        """Whether a layout line is told, of a process with this name and these buffers."""
        return (self.is_place(line.place) and not self.refused and (not self.names or name in self.names)
                and (not self.buffers or not self.buffers.isdisjoint(owned)))

    def tells_call(self, line, change, station):
        """Whether an answered call is told."""
        if not self.is_place(line.place) or self.refused and not line.answer.number:
            return False
        if self.processes and self.processes.isdisjoint(processes_of(line, change, station)):
            return False
        return not self.buffers or not self.buffers.isdisjoint(buffers_of(line, change))


class Silence(Filter):
    """No line is told, and the summary alone is left."""

    def is_place(self, _):
        return False


def buffers_of(line, change):
    """The buffers that a call is about: the one it names, the one it is answered with, those that it moves or lists."""
    named = [line.call.a] if line.call.number in NAMING_BUFFER else []
    return [*named, line.answer.buffer, *(b for b, _, _ in change.moved), *(row.buffer for row in line.rows)]


def processes_of(line, change, station):
    """The processes that a call is about: its caller, the one it names, those that wake or run because of it, and the two at
    either end of each buffer that it is about."""
    named = [line.call.a] if line.call.number in NAMING_PROCESS else []
    runs = [station.current] if station.current != change.caller else []
    called = [change.caller] if line.call.number in lines.OF_CURRENT else []
    talks = [station.buffers[b] for b in buffers_of(line, change) if b in station.buffers]
    ends = [p for talk in talks for p in (talk.owner, talk.receiver)]
    return [*called, *named, *runs, *change.woken, *ends]
