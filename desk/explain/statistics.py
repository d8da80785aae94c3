"""What a run comes to in numbers, by which buffers and priorities are chosen: calls, refusals, slices, waits, ages at the answer, and how
many buffers each owner had in use at once. It is counted call by call, and takes the same room for any log."""

from collections import Counter

from desk.log import lines
from desk.log.refusals import how_many, meaning_of, number_told, plural
from desk.log.station import ANSWERED, FREE, HELD, WAITING
from desk.log.words import aged, kept_together

CALLS = {lines.SEND: "send", lines.WAIT_ANSWER: "wait for an answer", lines.WAIT_EVENT: "wait for an event", lines.SEND_ANSWER: "answer",
         lines.WAIT_INTERRUPT: "wait for an interrupt", lines.START: "start", lines.STOP: "stop", lines.CLEAN: "clean", lines.TICK: "tick",
         lines.INTERRUPT: "interrupt", lines.LIST: "list", lines.LOWER: "lower", lines.RAISE: "raise"}
OUTSIDE, NOBODY = "from outside", "nobody"


def call_name(number):
    """A call by its name, or its number where it is none."""
    return CALLS.get(number, f"call {number:02X}")


class Waits:
    """The waits of one process: how many, the ticks of those that are over, the longest, and where that began."""

    def __init__(self):
        self.count, self.ended, self.longest, self.place = 0, 0, 0, None

    def end(self, ticks, place):
        """A wait that began in this line is over after so many ticks."""
        self.ended += ticks
        if self.place is None or ticks > self.longest:
            self.longest, self.place = ticks, place


class Statistics:
    """The numbers of a run so far."""

    def __init__(self):
        self.calls, self.refused, self.refusals, self.slices = Counter(), Counter(), Counter(), Counter()
        self.waits, self.begun, self.ages, self.most, self.in_use = {}, {}, {}, Counter(), Counter()
        self.station = None

    def note(self, line, change, station):
        """One more answered call."""
        self.station, call, number = station, line.call, line.answer.number
        self.calls[call.number] += 1
        if number:
            self.refused[call.number] += 1
            self.refusals[number, self.caller(call, change)] += 1
            return
        if call.number == lines.TICK:
            self.slices[change.caller] += 1
        self.note_waits(station)
        for b, before, after in change.moved:
            self.note_buffer(b, before, after, line, station)

    def caller(self, call, change):
        """Who made a call: the process that ran, or someone outside."""
        if call.number not in lines.OF_CURRENT:
            return OUTSIDE
        return self.station.name(change.caller) if change.caller else NOBODY

    def note_waits(self, station):
        """The waits that begin and end; each is known by the line that it began in."""
        for p, process in station.processes.items():
            now = process.since if process.state in WAITING else None
            before = self.begun.get(p)
            if now == before:
                continue
            if before:
                self.waits[p].end(station.ticks - before[0], before[1])
            if now:
                self.waits.setdefault(p, Waits()).count += 1
            self.begun[p] = now

    def note_buffer(self, b, before, after, line, station):
        """A buffer that moved: how many its owner has in use, and how old it was when its holder answered."""
        buffer = station.buffers[b]
        self.in_use[buffer.owner] += (before == FREE) - (after == FREE)
        self.most[buffer.owner] = max(self.most[buffer.owner], self.in_use[buffer.owner])
        if line.call.number == lines.SEND_ANSWER and (before, after) == (HELD, ANSWERED):
            self.ages.setdefault(buffer.receiver, Counter())[station.age(buffer)] += 1

    def waits_of(self, p):
        """The waits of a process, one that still lasts counted as far as it goes: how many, ticks together, the longest and its line."""
        waits, begun = self.waits.get(p), self.begun.get(p)
        if waits is None:
            return 0, 0, 0, None
        lasting = self.station.ticks - begun[0] if begun else 0
        longest = (lasting, begun[1]) if begun and (waits.place is None or lasting > waits.longest) else (waits.longest, waits.place)
        return (waits.count, waits.ended + lasting, *longest)

    def sections(self):
        """The parts of the statistics that have something to say: a label each, and sentences."""
        if self.station is None:
            return [("lines", ["No call was answered."])]
        told = [("calls", calls_told(self)), ("refused", refusals_told(self)), ("slices", slices_told(self)), ("waits", waits_told(self)),
                ("answers", ages_told(self)), ("buffers", buffers_told(self))]
        return [(label, sentences) for label, sentences in ((label, list(told)) for label, told in told) if sentences]

    def parts(self):
        """The same by the names of its parts."""
        station = self.station
        if station is None:
            return {"calls": [], "refusals": [], "ticks": 0, "processes": []}
        return {"calls": [{"call": call_name(number), "count": count, "refused": self.refused[number]} for number, count in sorted(self.calls.items())],
                "refusals": [{"number": number, "means": meaning_of(number), "caller": caller, "count": count}
                             for (number, caller), count in sorted(self.refusals.items())],
                "ticks": station.ticks,
                "processes": [self.process_parts(p, process) for p, process in station.processes.items()]}

    def process_parts(self, p, process):
        """What is counted of one process."""
        count, total, longest, place = self.waits_of(p)
        ages = self.ages.get(p, Counter())
        return {"process": process.name, "priority": process.priority, "slices": self.slices[p],
                "waits": {"count": count, "ticks": total, "longest": longest, "line": place},
                "answers": {"count": sum(ages.values()), "median": median(ages), "longest": max(ages, default=None)},
                "buffers": {"owned": len(process.owns), "most": self.most[p]}}


def median(ages):
    """The middle of some ages that are counted, of two the lower; None of none."""
    rest = (sum(ages.values()) + 1) // 2
    for age, count in sorted(ages.items()):
        rest -= count
        if rest <= 0:
            return age
    return None


def times(count):
    """How often."""
    return "once" if count == 1 else f"{count:,} times"


def calls_told(counted):
    """How many calls of each kind there were."""
    for number, count in sorted(counted.calls.items(), key=lambda pair: -pair[1]):
        refused = counted.refused[number]
        yield f"{call_name(number)}: {count:,}{f', {refused:,} of them refused' if refused else ''}."


def refusals_told(counted):
    """What was refused to whom, and how often; the most frequent first."""
    of = {}
    for (number, caller), count in counted.refusals.most_common():
        of.setdefault(number, []).append((caller, count))
    for number, callers in sorted(of.items(), key=lambda pair: -sum(count for _, count in pair[1])):
        whose = ", ".join(kept_together(f"{caller} {times(count)}") for caller, count in callers)
        yield f"{number_told(number)}, {meaning_of(number)}: {whose}."


def slices_told(counted):
    """Who had which share of the ticks."""
    total = sum(counted.slices.values())
    if not total:
        return
    shares = [(counted.station.name(p) if p else NOBODY, count) for p, count in counted.slices.most_common()]
    yield f"{how_many(total, 'tick')}: {', '.join(kept_together(f'{name} {100 * count / total:.0f} in 100') for name, count in shares)}."


def waits_told(counted):
    """How often and how long each process waited."""
    for p, process in counted.station.processes.items():
        count, total, longest, place = counted.waits_of(p)
        if total:
            since = kept_together(f"{how_many(longest, 'tick')} from line {place} on")
            yield f"{process.name} {times(count)}, {kept_together(how_many(total, 'tick'))} together, the longest {since}."
        elif count:
            yield f"{process.name} {times(count)}, less than a tick{' each' if count > 1 else ''}."


def ages_told(counted):
    """How old messages were when they were answered, by who answered."""
    for p, process in counted.station.processes.items():
        ages = counted.ages.get(p)
        if not ages:
            continue
        half, oldest = median(ages), max(ages)
        after = kept_together(f"after {aged(oldest)}") if oldest else "in less than a tick"
        within = f"half of them {f'within {aged(half)}' if half else 'in less than a tick'}, the oldest " if half < oldest else ""
        yield f"{process.name} answered {how_many(sum(ages.values()), 'message')}, {within}{after}."


def buffers_told(counted):
    """How many of its buffers each owner had in use at once."""
    for p, process in counted.station.processes.items():
        if process.owns:
            most, owned = counted.most[p], len(process.owns)
            its = "its one buffer" if owned == 1 else f"all its {owned} buffers" if most == owned else f"{most} of its {plural(owned, 'buffer')}"
            yield f"{process.name} used {its}{' at once' if most > 1 else ''}." if most else f"{process.name} used no buffer of its {owned}."
