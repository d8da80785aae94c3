"""A log told for other programs, a line of JSON for each of its lines (docs/JSON.md and docs/explain.schema.json say what stands there)."""

import json

from desk.explain.statistics import call_name
from desk.explain.telling import Telling
from desk.log import lines, standard
from desk.log.fates import sentence_of
from desk.log.layout import refusal_reasons, shown_name
from desk.log.refusals import meaning_of
from desk.log.station import STANDINGS

OPEN = STANDINGS[1:]

# By call: the names of its parts. A process is given by its name, as far as it is there.
PARTS = {lines.SEND: ("receiver",), lines.WAIT_ANSWER: ("buffer",), lines.WAIT_EVENT: ("delay",), lines.SEND_ANSWER: ("buffer",),
         lines.WAIT_INTERRUPT: ("device", "delay"), lines.START: ("process",), lines.STOP: ("process",), lines.CLEAN: ("process",), lines.TICK: (),
         lines.INTERRUPT: ("device",), lines.LIST: ("process",), lines.LOWER: ("semaphore",), lines.RAISE: ("semaphore",)}
NAMED = ("receiver", "process")
WORDED = (lines.SEND, lines.SEND_ANSWER)


def parts_of(call, station):
    """The parts of a call by their names; of a call that there isn't, its words as they are."""
    if call.number not in PARTS:
        return {"a": call.a, "b": call.b, "words": list(call.words)}
    values = dict(zip(PARTS[call.number], (call.a, call.b)))
    parts = {name: station.name(value) if name in NAMED else value for name, value in values.items()}
    return {**parts, "words": list(call.words)} if call.number in WORDED else parts


def row_parts(row, station):
    """A row of a listing by its parts."""
    standing = STANDINGS[row.standing] if row.standing < len(STANDINGS) else str(row.standing)
    return {"buffer": row.buffer, "owner": station.name(row.owner), "receiver": station.name(row.receiver), "standing": standing, "age": row.age}


def answer_parts(line, station):
    """An answer by its parts; of a refusal its number and what that means alone."""
    answer = line.answer
    if answer.number:
        return {"number": answer.number, "means": meaning_of(answer.number)}
    parts = {"number": 0, "kind": answer.kind, "buffer": answer.buffer, "current": station.name(answer.current) if answer.current else None,
             "words": list(answer.words)}
    return {**parts, "rows": [row_parts(row, station) for row in line.rows]} if line.call.number == lines.LIST else parts


def open_parts(station):
    """The open conversations, standing by standing."""
    found = {standing: [] for standing in OPEN}
    for b, buffer in station.open_buffers():
        found[STANDINGS[buffer.standing]].append({"buffer": b, "owner": station.name(buffer.owner), "receiver": station.name(buffer.receiver),
                                                  "age": station.age(buffer)})
    return found


class Objects(Telling):
    """A log told as objects, by the steps of a telling."""

    def call_told(self, line, caller, change, found, *_):
        """A call with its answer."""
        station, call = self.station, line.call
        started = [call.a] if call.number == lines.START and not line.answer.number and call.a in station.processes else []
        return {"is": "call", "line": line.place, "caller": caller if call.number in lines.OF_CURRENT and change.caller else None,
                "call": call_name(call.number), "number": call.number, "parts": parts_of(call, station), "answer": answer_parts(line, station),
                "woken": [station.name(p) for p in change.woken], "entered": [station.name(p) for p in (*change.woken, *started)],
                "open": open_parts(station), **self.findings(line, found)}

    def findings(self, line, found):
        """What a station's own answers show; nothing where the monitor's are told."""
        return {"found": [f"{sentence_of(one)}." for one in found] + ([line.wrong] if line.wrong else [])} if self.own else {}

    def unanswered_told(self, line):
        """A call that its log gives no answer."""
        return {"is": "unanswered", "line": line.place, "call": call_name(line.call.number), "number": line.call.number,
                "parts": parts_of(line.call, self.station), "found": [line.wrong]}

    def fault_told(self, line):
        """A line that is no call."""
        return {"is": "no call", "line": line.place, "fault": line.fault, **self.findings(line, [])}

    def entry_told(self, line, number, entry, owned):
        """A layout line."""
        return {"is": "layout", "line": line.place, "process": number, "name": shown_name(number, entry.name), "priority": entry.priority,
                "buffers": list(owned)}

    def refused_told(self, line):
        """A refused layout."""
        return {"is": "refused layout", "line": line.place, "number": line.answer.number, "reasons": refusal_reasons(self.entries)}


def tell_objects(answers, telling, progress, wants_lines):
    """Tells the whole log as lines of JSON, or, where the lines aren't wanted, nothing; gives the exit code."""
    try:
        for line in answers.followed():
            told = telling.tell(line)
            if told is not None and wants_lines:
                standard.say(json.dumps(told))
            if progress:
                progress.note(line.place or 0)
    except lines.OutputEnds:
        standard.complain("explain", "here the monitor's answers break off.")
        return 1
    finally:
        if progress:
            progress.end()
    return 0
