"""Who is stuck behind whom: the chains of processes that wait for an answer, and the rings they run into.

A process in FOR_ANSWER waits for the receiver of its buffer; that one may wait too, and so on. Where a process comes up a
second time the waiting goes round, until one of the ring is stopped or cleaned.
"""

from desk.log.refusals import STATES
from desk.log.station import FOR_ANSWER


def chain(station, p):
    """The processes from p on, each waiting for the one after it; the last waits for nobody, or for one listed before."""
    listed = []
    while p and p not in listed:
        listed.append(p)
        p = station.holder(p)
    return listed


def rings(station):
    """The rings, each once from its lowest process on; rings by rising lowest process."""
    round_trips = (chain(station, p) for p in station.processes)
    return [way for way in round_trips if station.holder(way[-1]) == way[0] == min(way)]


def ring_told(station, ring):
    """A ring as a sentence."""
    names = " behind ".join(station.name(p) for p in [*ring, ring[0]])
    return f"{names}, a ring: only a stop or a clean of one of them ends it."


def end_told(station, p, ring):
    """What the last process named does, or which ring it is in."""
    if ring:
        return f"is in the ring of {station.name(ring[0])}"
    return "runs" if p == station.current else STATES[station.processes[p].state]


def chain_told(station, way, around):
    """A chain from outside any ring as a sentence: up to the first that waits for no answer, or is in a ring."""
    end = next(i for i, p in enumerate(way) if p in around or not station.holder(p))
    names = " behind ".join(station.name(p) for p in way[:end + 1])
    return f"{names}, which {end_told(station, way[end], around.get(way[end]))}."


def stuck_told(station):
    """All who are stuck, as sentences: each ring, and each chain from a process that nobody waits for. None is left out."""
    waiting = [p for p, process in station.processes.items() if process.state == FOR_ANSWER]
    found = rings(station)
    around = {p: ring for ring in found for p in ring}
    holders = {station.holder(p) for p in waiting}
    outermost = [p for p in waiting if p not in holders and p not in around]
    return [*(ring_told(station, ring) for ring in found),
            *(chain_told(station, chain(station, p), around) for p in outermost)]
