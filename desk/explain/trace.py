"""A run in the trace event format, which Perfetto and Chrome's tracing page open: a row for each process with what it does as slices,
messages and answers as flows from who sends to who takes them and back, ticks as time, refusals as instants.

A tick is a millisecond there. Row 0 is the clock and who calls from outside.
"""

import json

from desk.explain.canvas import TRACE_BEGINS
from desk.explain.moments import AT_FIRST

BEGINS = TRACE_BEGINS.decode() + ', "displayTimeUnit": "ms", "traceEvents": [\n'
TICK = 1000  # the format's microseconds in a tick
STATION, CLOCK = 1, 0


def time_of(moment, moments):
    """When a moment is, in microseconds."""
    return round(TICK * (moment.ticks + moment.order / moments.counts[moment.ticks]), 3)


def event(kind, name, row, when, **more):
    """One event; its kind is the format's letter."""
    return {"ph": kind, "name": name, "pid": STATION, "tid": row, "ts": when, **more}


def rows(moments):
    """What the rows are called, and their order."""
    yield event("M", "process_name", CLOCK, 0, args={"name": "station"})
    for row, name in enumerate(["clock and outside", *moments.names]):
        yield event("M", "thread_name", row, 0, args={"name": name})
        yield event("M", "thread_sort_index", row, 0, args={"sort_index": row})


def slices(moments):
    """What each process does and how long; at first each is stopped."""
    begun = {p: (AT_FIRST.words, 0.0, None) for p in range(1, len(moments.names) + 1)}
    for moment in moments.moments:
        when = time_of(moment, moments)
        for p, doing in moment.changed.items():
            if begun[p][0] != doing.words:
                yield ended(p, *begun[p], when)
                begun[p] = (doing.words, when, moment.line)
    for p, (words, since, line) in begun.items():
        yield ended(p, words, since, line, float(TICK * moments.end()))


def ended(p, words, since, line, when):
    """A slice that is over, with the line that began it."""
    return event("X", words, p, since, dur=round(when - since, 3), cat="state", args={} if line is None else {"line": line})


def flows(moments):
    """Messages and answers: each leaves in one row, and comes in another where it is taken."""
    for moment in moments.moments:
        when = time_of(moment, moments)
        for way in moment.ways:
            more = {"cat": way.what, "id": f"{way.what} {way.buffer}.{way.turn}", "args": {"buffer": way.buffer, "line": moment.line}}
            yield event("s" if way.leaves else "f", way.what, way.process, when, **more, **({} if way.leaves else {"bp": "e"}))


def instants(moments):
    """Ticks, and refusals in the row of who was refused."""
    for moment in moments.moments:
        when, args = time_of(moment, moments), {"line": moment.line}
        if moment.refusal:
            yield event("i", f"{moment.title}: refused, {moment.refusal}", moment.caller, when, s="t", cat="refusal", args=args)
        elif moment.title == "tick":
            yield event("i", f"tick {moment.ticks}", CLOCK, when, s="t", cat="tick", args=args)


def trace_of(moments):
    """The whole trace, in pieces of whole lines."""
    yield BEGINS
    last = None
    for one in (one for part in (rows, slices, flows, instants) for one in part(moments)):
        if last:
            yield f"{json.dumps(last)},\n"
        last = one
    yield f"{json.dumps(last)}\n]}}\n"
