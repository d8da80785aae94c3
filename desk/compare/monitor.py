"""A log that carries a station's answers, held to the proved monitor: each call at which the station strayed, and what became of the
buffers by its own answers."""

from collections import namedtuple

from desk.compare import program
from desk.compare.beside import how_many, printable, told
from desk.compare.calls import Group, differing, groups_of, line_of, read
from desk.compare.strays import lines_told, parts_told, strayed
from desk.log import lines, standard, woven
from desk.log.alone import Names, told_alone
from desk.log.cures import named
from desk.log.fates import FAULTS, Fates, sentence_of
from desk.log.layout import PLAIN, entry_of, spoilt_told
from desk.log.passed import Passed
from desk.log.replaying import replayed
from desk.log.standard import CannotGoOn
from desk.log.station import Station
from desk.log.words import asked, outcome, refusal_told
from desk.log.words import told as told_whole

PROGRESS_STEP = 100000  # calls between two words of progress
MOST_FOUND = 12         # so many findings are told

# A call that was run: who made it, where a process did, what it asked, and what came of it, as sentences.
Seen = namedtuple("Seen", "caller asked sentences")
NOTHING_SEEN = Seen("", "", [])


def say_progress(place, count, wanted):
    """A word on standard error every so many calls, where it is wanted and there are many."""
    if wanted and count > PROGRESS_STEP and (place % PROGRESS_STEP == 0 or place == count):
        standard.whisper(f"\rcompare: {place} of {count} calls" + ("\n" if place == count else ""))


class Run:
    """A station's log, call by call, and what the monitor answers to the same calls. The answers before any call, which there
    shouldn't be, are the first of its own; behind a refused layout the monitor has nothing."""

    def __init__(self, path, outfit=PLAIN, progress=False):
        raws = read(path)
        odd = named(raws[0], "./compare --to-monitor") if raws else None
        if odd:
            raise CannotGoOn(f"the log can't be judged as it is: {odd}.")
        self.outfit, self.own, self.progress = outfit, groups_of(raws), progress
        self.head = 1 if self.own and self.own[0].place == 0 else 0  # how many stand before the first call
        self.log = b"".join(raw + b"\n" for _, raw in Passed(outfit).calls(raws))
        self.output = replayed(self.log, outfit)
        if self.output and not any(group.answers for group in self.own):
            raise CannotGoOn("the log carries no answers: each stands behind its call, marked with '> '.")
        self.names = Names([group.raw for group in self.own])
        self.counts, self.calls, self.spoilt = {"layout": 0, "call": 0, "none": 0}, [], None
        self.due = [Group(group.place, group.raw, []) for group in self.own]
        self.answer()

    def followed(self):
        """Each call with the monitor's answer, and its number among the log's own."""
        count = len(self.own) - self.head
        for line in lines.follow(self.log, self.output):
            place = line.place or count
            say_progress(place, count, self.progress)
            yield place - 1 + self.head, line

    def answer(self):
        """Puts the monitor's answers behind the calls."""
        for number, line in self.followed():
            self.due[number].answers.extend(line.written)
            kind = "none" if line.fault else "layout" if line.call and line.call.number == lines.LAYOUT else "call"
            self.counts[kind] += 1
            self.calls += [number] if kind == "call" else []
            if line.spoilt and not self.spoilt:
                self.spoilt = line._replace(place=self.own[number].place)
            if line.call is None and line.fault is None:
                del self.due[number + 1:]

    def seen(self, numbers):
        """Some of the calls as they were run, by their numbers."""
        station, entries, found = None, [], {}
        for number, line in self.followed():
            if line.call and line.call.number == lines.LAYOUT:
                entries.append(entry_of(line))
                continue
            change, caller = None, ""
            if line.call:
                station = station or Station(entries, self.outfit)
                caller = station.running()
                change = station.take(line.call, line.answer, self.own[number].place)
            if number in numbers:
                found[number] = seen(line, caller, change, station, entries)
        return found

    def fates(self):
        """What was found in the station's own answers; None where its layout is refused or no call came."""
        entries, fates = [], None
        for line in woven.follow_groups(self.own[self.head:], self.outfit):
            if line.call and line.call.number == lines.LAYOUT:
                entries.append(entry_of(line))
            elif line.call and line.answer:
                fates = fates or Fates(Station(entries, self.outfit))
                fates.take(line)
        return fates


def seen(line, caller, change, station, entries):
    """A call that was run in words."""
    if line.fault:
        return Seen("", f"No call: {line.fault}", [])
    if line.call is None:
        return Seen("", "", refusal_told(entries))
    by = caller if line.call.number in lines.OF_CURRENT else ""
    return Seen(by, asked(line.call, station), told_whole(outcome(line, change, station), line, change, station))


class Strays:
    """Where the station strayed: the numbers of the calls, and those that are told as they were run."""

    def __init__(self, run, most):
        self.run, self.numbers = run, differing(run.own, run.due)
        self.shown = self.numbers[:most]
        self.seen = run.seen({*self.shown, len(run.due) - 1})

    def due(self, number):
        """What the monitor has for a call; nothing where it has ended."""
        return self.run.due[number] if number < len(self.run.due) else None

    def line(self, number):
        """The line of the log in which a call strays."""
        own, due = self.run.own[number], self.due(number)
        return line_of(own, due) if due else own.place

    def how(self, number):
        """How the station strayed at a call."""
        due = self.due(number)
        return strayed(self.run.own[number], due) if due else "went on after a layout that is refused"

    def whole(self, number):
        """A stray with all that belongs to it."""
        own, due, names = self.run.own[number], self.due(number), self.run.names
        call = self.seen.get(number if due else len(self.run.due) - 1, NOTHING_SEEN)
        if own.place:
            yield f"  {'asked':<8}{printable(program.shown(own.raw))}"
            yield told(" " * 10, f"By {call.caller}: {call.asked}" if call.caller else call.asked or told_alone(own.raw, names))
        if due:
            yield from lines_told("station", own, due, names)
            yield from lines_told("monitor", due, own, names)
            if own.answers and due.answers:
                yield told("", f"In the station's answer {', '.join(parts_told(own, due, names))}")
        if call.sentences:
            yield "\nWhat should have come of it:"
            yield from (told("  ", sentence.rstrip(".")) for sentence in call.sentences)

    def short(self, number):
        """A stray in a sentence, without who called: behind the first the station and the monitor may have others current."""
        own, due = self.run.own[number], self.due(number)
        call = self.seen.get(number, NOTHING_SEEN)
        what = ", ".join(parts_told(own, due, self.run.names)) if due else "behind a layout that is refused"
        return told(f"  line {self.line(number):<6,} ", f"{call.asked or told_alone(own.raw, self.run.names)}; {what}")


def right_before(run, number):
    """How many calls stand before one; layout lines and lines that are no calls aren't counted."""
    return sum(number_of_call < number for number_of_call in run.calls)


def verdict(run, strays):
    """Where the station strayed, in words."""
    yield from (told("", f"Beware: {sentence.rstrip('.')}") + "\n" for sentence in spoilt_told(run.spoilt))
    if not strays.numbers:
        count = run.counts["none"]
        none = f" and {how_many(count, 'line')} that {'is no call' if count == 1 else 'are no calls'}" if count else ""
        answers = sum(len(group.answers) for group in run.own)
        calls = how_many(run.counts["call"], "call")
        yield told("", f"The station answered as the monitor does: {calls}{none}, {how_many(answers, 'line')} of answers")
        return
    first, *others = strays.numbers
    yield f"The station strayed at line {strays.line(first):,} of its log: it {strays.how(first)}.\n"
    yield from strays.whole(first)
    before = right_before(run, first)
    right = "call" if before == 1 else how_many(before, "call")
    went = f"The call stands in line {run.own[first].place:,}, and the {right} before it went right. " if before else ""
    behind = f"{how_many(len(others), 'call')} behind it strayed too, which may come of it" if others else "No other strayed"
    yield "\n" + told("", went + behind)
    yield from (strays.short(number) for number in strays.shown[1:])
    hidden = len(strays.numbers) - max(1, len(strays.shown))
    if hidden:
        yield told("", f"Not shown: {how_many(hidden, 'call')} of these. --all shows all, --most N another number, --numbers the line "
                       "numbers alone")


def fates_told(run):
    """What became of the buffers, by the station's own answers."""
    fates = run.fates()
    if fates is None:
        return
    if not any(one.fault in FAULTS for one in fates.found):
        yield told("", "By its own answers no buffer is lost, nobody waits for an answer already withdrawn, no stranger is woken")
    else:
        yield "What became of the buffers, by the station's own answers, at the calls' lines:"
    yield from (told(f"  line {one.place:<6,} ", sentence_of(one)) for one in fates.found[:MOST_FOUND])
    if len(fates.found) > MOST_FOUND:
        yield told("  ", f"And {len(fates.found) - MOST_FOUND} more; ./explain --answers LOG tells each at its line")
    if len(fates.found) > 1:
        yield "Those behind the first may come of it."


def hold(wanted, outfit, progress):
    """Holds a station's log to the monitor; gives the exit code."""
    run = Run(wanted.logs[0], outfit, progress)
    strays = Strays(run, 0 if wanted.numbers else wanted.most)
    if wanted.numbers:
        texts = (str(strays.line(number)) for number in strays.numbers)
    else:
        texts = [*verdict(run, strays), "", *fates_told(run)]
    for text in texts:
        standard.say(text)
    return program.DIFFER if strays.numbers else program.SAME
