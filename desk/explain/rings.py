"""Rings through time: at which call a ring of waiting processes closes, and at which it is gone (docs/MONITOR.md, 17.1).

A ring closes only where somebody begins to wait for an answer, so that only then one is looked for; while there is one, after each call.
"""

from collections import namedtuple

from desk.explain.stuck import rings
from desk.log import lines

# A ring: its processes from the lowest on, the line that closed it, and the line that ended it, or None while it lasts.
Ring = namedtuple("Ring", "processes closed gone")


def way(ring, station):
    """A ring as a person draws it: READ > SPELL > READ."""
    return " > ".join(station.name(p) for p in (*ring.processes, ring.processes[0]))


class Rings:
    """The rings of a run so far: those that last, and those that are gone, by the order of their closing."""

    def __init__(self):
        self.lasting, self.all = {}, []

    def may_change(self, line):
        """Whether a call may close a ring or end one."""
        return self.lasting or line.call.number == lines.WAIT_ANSWER

    def note(self, line, station):
        """Looks at the station after such a call; gives the rings that it closed, and those that it ended."""
        now = {tuple(ring) for ring in rings(station)}
        closed = [Ring(ring, line.place, None) for ring in sorted(now - set(self.lasting))]
        ended = [self.end(ring, line.place) for ring in sorted(set(self.lasting) - now)]
        for ring in closed:
            self.lasting[ring.processes] = len(self.all)
            self.all.append(ring)
        return closed, ended

    def end(self, processes, place):
        """A ring is gone."""
        number = self.lasting.pop(processes)
        self.all[number] = self.all[number]._replace(gone=place)
        return self.all[number]

    def told(self, station):
        """All rings of the run, as sentences."""
        for ring in self.all:
            until = f"to line {ring.gone}" if ring.gone else "on, and it is still there"
            yield f"{way(ring, station)}, from line {ring.closed} {until}."


def changes_told(closed, ended, station):
    """The rings that a call closed and ended, as sentences."""
    return [*(f"A ring closes: {way(ring, station)}." for ring in closed), *(f"The ring is gone: {way(ring, station)}." for ring in ended)]
