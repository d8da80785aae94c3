"""A log told line by line, the station kept along the way."""

from desk.explain.faults import fault_told
from desk.explain.filters import Silence
from desk.explain.rings import Rings, changes_told
from desk.explain.summary import Counts, sections, summary_told
from desk.log import lines
from desk.log.alone import answer_told
from desk.log.fates import CANNOT, Fates, sentence_of
from desk.log.layout import PLAIN, entry_of, shown_name
from desk.log.refusals import plural
from desk.log.standard import CannotGoOn
from desk.log.station import Station
from desk.log.words import WIDTH, asked, conversations, entry_told, outcome, refusal_told, row, told


def walked(walk):
    """How far those walked that a call put into the running queue, as a sentence; none where nobody entered or moved."""
    parts = []
    if len(walk.passed) == 1:
        parts.append(f"who entered passed {plural(walk.passed[0], 'record')}")
    elif walk.passed:
        parts.append(f"{len(walk.passed)} entered and passed {plural(sum(walk.passed), 'record')} together, "
                     f"one of them {max(walk.passed)}")
    if walk.moved is not None:
        parts.append(f"the move passed {plural(walk.moved, 'record')}")
    return [f"Walk: {'; '.join(parts)}."] if parts else []


def wrong_told(line):
    """What is wrong with the number or shape of a station's answers, as sentences."""
    return [f"In the log {line.wrong}."] if line.wrong else []


class Telling:
    """A log told line by line: the entries so far, the station once it is laid out, what was said of the last line alone, the
    timeline where one is wanted, whether walks are told, the filter where there is one, the width of the rows, the station's
    outfit, and whether the answers are the station's own, which may be wrong; the drawing of waits where one is wanted, and those who
    record each answered call."""

    def __init__(self, timeline=None, walks=False, chosen=None, width=WIDTH, outfit=PLAIN, own=False):
        self.entries, self.buffers = [], 0
        self.station, self.fates, self.waits, self.said, self.recorders = None, None, None, "", []
        self.timeline, self.walks = timeline, walks
        self.chosen, self.width, self.outfit, self.own = chosen, width, outfit, own
        self.counts, self.rings = Counts(), Rings()
        self.opened, self.moves = "", None  # the open buffers in words, and the station's moves at which they were so

    def tell(self, line):
        """One line of the log as a row; None where the filter leaves it out."""
        if line.fault:
            return self.tell_fault(line)
        if line.call is None:
            self.counts.layout_refused = True
            return self.refused_told(line)
        if line.call.number == lines.LAYOUT:
            return self.tell_entry(line)
        try:
            return self.tell_call(line)
        except (KeyError, ValueError) as error:  # of records that there aren't, or aren't where they would have to be
            raise CannotGoOn(f"the answer to line {line.place} can't follow from the lines before it.") from error

    def tell_call(self, line):
        """A call with its answer."""
        station = self.station or self.lay_out()
        caller = self.caller()
        if line.answer is None:
            return self.tell_unanswered(line)
        if self.waits:
            self.waits.note(line.place, station)
        change, found = self.fates.take(line) if self.own else (station.take(line.call, line.answer, line.place), [])
        self.counts.call(line)
        for recorder in self.recorders:
            recorder.note(line, change, station)
        closed, ended = self.rings.note(line, station) if self.rings.may_change(line) else ((), ())
        is_told = not self.chosen or self.chosen.tells_call(line, change, station)
        if self.timeline:
            self.timeline.note(line, station, is_told or not self.wants_rows())
            self.timeline.note_rings(closed, ended, station)
        return self.call_told(line, caller, change, found, closed, ended) if is_told else None

    def call_told(self, line, caller, change, found, closed, ended):
        """A call with its answer as a row: what came of it, what was found in it, and the rings that it closed and ended."""
        station = self.station
        cannot = found and found[0].fault == CANNOT
        self.said = f"{asked(line.call, station)}: {answer_told(line.answer, station)}." if cannot else outcome(line, change, station)
        sentences = told(self.said, line, change, station, self.opened_told())
        if self.walks:
            sentences += walked(change.walk)
        if closed or ended:
            sentences += changes_told(closed, ended, station)
        if self.own:
            sentences += [f"{sentence_of(one)}." for one in found] + wrong_told(line)
        return row(line.place, caller, sentences, self.width)

    def tell_unanswered(self, line):
        """A call that its log gives no answer."""
        self.counts.call(line)
        if self.chosen and not self.chosen.tells_fault(line):
            return None
        return self.unanswered_told(line)

    def unanswered_told(self, line):
        """A call without an answer as a row."""
        self.said = f"{asked(line.call, self.station)}: {line.wrong}."
        return row(line.place, self.caller(), [self.said], self.width)

    def tell_fault(self, line):
        """A line that is no call."""
        self.counts.fault(line)
        if self.chosen and not self.chosen.tells_fault(line):
            return None
        return self.fault_told(line)

    def fault_told(self, line):
        """A line that is no call as a row."""
        sentences = fault_told(line)
        self.said = sentences[0]
        return row(line.place, self.caller(), sentences + wrong_told(line), self.width)

    def tell_entry(self, line):
        """A layout line: its entry is taken in."""
        entry = entry_of(line)
        self.entries.append(entry)
        self.counts.layout += 1
        number, first = len(self.entries), self.buffers + 1
        self.buffers += entry.buffers
        owned = range(first, first + entry.buffers)
        if self.chosen and not self.chosen.tells_entry(line, shown_name(number, entry.name), owned):
            return None
        return self.entry_told(line, number, entry, owned)

    def entry_told(self, line, number, entry, owned):
        """A layout line as a row."""
        return row(line.place, "", [entry_told(number, entry, owned.start), *wrong_told(line)], self.width)

    def refused_told(self, line):
        """A refused layout as a row."""
        return row(line.place or "end", "", refusal_told(self.entries), self.width)

    def lay_out(self):
        """The station, at its first call."""
        self.station = Station(self.entries, self.outfit)
        self.fates = Fates(self.station)
        if self.chosen:
            self.chosen.settle(self.station)
        return self.station

    def opened_told(self):
        """The open buffers in words, which are made anew only where they may be others."""
        if self.moves != self.station.moves:
            self.opened, self.moves = conversations(self.station), self.station.moves
        return self.opened

    def close(self):
        """The summary, behind the last row."""
        if self.station is None and not self.counts.layout_refused:
            self.lay_out()
        return summary_told(self.sections(), self.width)

    def sections(self):
        """The parts of the summary."""
        return sections(self.counts, self.station, self.rings, self.fates if self.own else None)

    def wants_rows(self):
        """Whether rows are told, and not the summary alone."""
        return not isinstance(self.chosen, Silence)

    def caller(self):
        """Who is current, once there is a station."""
        return self.station.running() if self.station else ""
