"""The closing summary of a log: what was called and refused, and how the station stands at the end."""

import re

from desk.explain.faults import cures_told, kind_of
from desk.explain.stuck import stuck_told
from desk.log.fates import FAULTS, sentence_of
from desk.log.layout import spoilt_told
from desk.log.refusals import meaning_of, number_told, plural
from desk.log.station import FREE, RUNNING, STANDINGS, STOPPED
from desk.log.words import WIDTH, aged, kept_together, wait_told, wrapped


NUMBERS = re.compile("[0-9]+")
MOST_FOUND = 12  # so many findings are told again in the summary


class Tally:
    """How often something came up, in which line first, and its words there."""

    def __init__(self, place, words):
        self.count, self.place, self.words = 0, place, words

    def told(self):
        """The tally as a sentence."""
        often = "once, in" if self.count == 1 else f"{self.count} times, first in"
        return f"{self.words}: {kept_together(f'{often} line {self.place}')}."


def count(tallies, key, place, words, times=1):
    """Counts something into the tallies."""
    if key not in tallies:
        tallies[key] = Tally(place, words)
    tallies[key].count += times


class Counts:
    """The lines of a log, counted as they come: those of the layout, calls, refusals by number, faults by kind, what is wrong with
    the shape of a station's answers, and how many of these were passed over."""

    def __init__(self):
        self.layout, self.calls, self.layout_refused, self.passed, self.spoilt = 0, 0, False, 0, None
        self.refusals, self.faults, self.wrong = {}, {}, {}

    def call(self, line):
        """One more call, and its answer if it has one."""
        self.calls += 1
        number = line.answer.number if line.answer else 0
        if number:
            count(self.refusals, number, line.place, f"{number_told(number)}, {meaning_of(number)}")
        self.look(line)

    def fault(self, line):
        """One more line that is no call, and those that repeat its fault."""
        count(self.faults, kind_of(line.fault), line.place, line.fault, line.repeats + 1)
        self.spoilt = self.spoilt or (line if line.spoilt else None)
        self.look(line)

    def look(self, line):
        """What is wrong with the shape of a station's answers."""
        if line.wrong:
            count(self.wrong, NUMBERS.sub("..", line.wrong), line.place, line.wrong)


def total(tallies):
    """How many there are together."""
    return sum(tally.count for tally in tallies.values())


def lines_told(counts):
    """How many lines of each sort there were."""
    faults = total(counts.faults)
    none = f", {faults} that {'was no call' if faults == 1 else 'were no calls'}" if faults else ""
    yield f"{plural(counts.layout, 'layout line')}, {plural(counts.calls, 'call')}{none}."
    if counts.layout_refused:
        yield "The layout was refused, and no line after it was read."


def refusals_told(counts):
    """How many calls were refused, and why."""
    refused = total(counts.refusals)
    if refused:
        yield f"{refused} of {plural(counts.calls, 'call')}:"
        yield from (counts.refusals[number].told() for number in sorted(counts.refusals))


def faults_told(counts):
    """What was wrong with the lines that were no calls."""
    for tally in counts.faults.values():
        yield tally.told()
        yield from cures_told(tally.words)


def answers_told(counts):
    """How many answers of the station were passed over, and how they are judged; what is wrong with the shape of those that are told."""
    if counts.passed:
        yield (f"{plural(counts.passed, 'line')} marked '> ', the station's own, passed over: what is told is the monitor's run. "
               "./compare --to-monitor LOG judges them, ./explain --answers LOG tells them.")
    yield from (tally.told() for tally in counts.wrong.values())


def fates_told(fates):
    """Whether a buffer was lost, by a station's own answers."""
    if fates is None:
        return
    if not any(one.fault in FAULTS for one in fates.found):
        yield "No buffer is lost, nobody waits for an answer already withdrawn, no stranger is woken."
    yield from (f"line {one.place}: {sentence_of(one)}." for one in fates.found[:MOST_FOUND])
    if len(fates.found) > MOST_FOUND:
        yield f"And {len(fates.found) - MOST_FOUND} more."
    if len(fates.found) > 1:
        yield "Those behind the first may come of it."


def kept_told(station):
    """Which interrupts are kept."""
    for device, place in sorted(station.kept.items()):
        yield f"an interrupt from device {device}; {kept_together(f'since line {place}')}."


def names_of(station, numbers):
    """Some processes by name."""
    return ", ".join(station.name(p) for p in numbers)


def running_told(station):
    """Who runs, who is ready to, and who is stopped."""
    ready = [p for p, process in station.processes.items() if process.state == RUNNING and p != station.current]
    stopped = [p for p, process in station.processes.items() if process.state == STOPPED]
    parts = [f"{station.running()} runs" if station.current else "Nobody runs"]
    parts += [f"ready to run: {names_of(station, ready)}"] if ready else []
    parts += [f"stopped: {names_of(station, stopped)}"] if stopped else []
    return ["; ".join(parts) + "."]


def since_told(ticks, place, station):
    """Since which line something is so, and for how many ticks."""
    age = station.ticks - ticks
    return kept_together(f"since line {place}") + (f", {kept_together(plural(age, 'tick'))} ago" if age else "")


def waits_told(station):
    """Who waits for what, and since when."""
    for process in station.processes.values():
        wait = wait_told(process, station)
        if wait:
            yield f"{process.name} for {wait}; {since_told(*process.since, station)}."


def counters_told(station):
    """What each semaphore's counter is, and who waits for it, the longest waiter first."""
    for s, semaphore in station.semaphores.items():
        waiting = names_of(station, semaphore.waiters)
        yield f"semaphore {s}: {semaphore.counter}{f', {waiting} waiting' if waiting else ''}."


def open_told(station):
    """What is open and how old, the oldest first."""
    if not station.opened:
        return
    first = ", the oldest first" if len(station.opened) > 1 else ""
    yield f"{len(station.opened)} of {plural(len(station.buffers), 'buffer')}{first}:"
    for b, buffer in sorted(station.open_buffers(), key=lambda pair: pair[1].sent):
        ago = station.age(buffer)
        yield (f"{b} {station.name(buffer.owner)}>{station.name(buffer.receiver)} {STANDINGS[buffer.standing]}, sent in line "
               f"{buffer.place}{f', {aged(ago)} ago' if ago else ''}.")


def no_free_told(station):
    """Who owns no free buffer."""
    for process in station.processes.values():
        if all(station.buffers[b].standing != FREE for b in process.owns):
            owned = len(process.owns)
            used = "" if not owned else ", and it is in use" if owned == 1 else ", all in use"
            yield f"{process.name} owns {plural(owned, 'buffer')}{used}."


def sections(counts, station, rings, fates=None):
    """The parts of the summary that have something to say: a label each, and sentences; with what was found, where the answers are
    the station's own."""
    parts = [("beware", spoilt_told(counts.spoilt if counts.layout else None)), ("lines", lines_told(counts)), ("buffers", fates_told(fates)),
             ("answers", answers_told(counts)), ("no calls", faults_told(counts)), ("refused", refusals_told(counts))]
    if station and not counts.layout_refused:
        parts += [("running", running_told(station)), ("waiting", waits_told(station)), ("counters", counters_told(station)),
                  ("kept", kept_told(station)), ("open", open_told(station)),
                  ("no free", no_free_told(station)), ("rings", rings.told(station)), ("stuck", stuck_told(station))]
    told = [(label, list(sentences)) for label, sentences in parts]
    return [(label, sentences) for label, sentences in told if sentences]


def summary_told(parts, width=WIDTH, title="Summary"):
    """The summary in lines of some width."""
    told = [title]
    for label, sentences in parts:
        heads = [f"  {label:<8}  ", *[" " * 12] * (len(sentences) - 1)]
        told += [wrapped(sentence, head, " " * 14, width) for head, sentence in zip(heads, sentences)]
    return "\n".join(told)
