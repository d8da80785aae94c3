"""A station's own answers, which are passed over where the monitor's are told: how many there are, and whether they show that the
station has another outfit than it is taken to have."""

from desk.log import lines
from desk.log.outfit import lacking
from desk.log.standard import CannotGoOn


def refuse_lacking(place, call, answer, outfit):
    """Refuses an answer that a station of this outfit can't give: a run of another kind of station would say nothing of it."""
    sentence = lacking(call, answer, outfit)
    if sentence:
        raise CannotGoOn(f"in line {place} {sentence}.")


class Passed:
    """The answers passed over so far, at a station that is taken to have this outfit."""

    def __init__(self, outfit):
        self.outfit, self.count = outfit, 0

    def calls(self, raws):
        """The lines of a log that are no answers, each with its place."""
        before = b""
        for place, raw in enumerate(raws, 1):
            if not raw.startswith(lines.MARK):
                before = raw
                yield place, raw
                continue
            self.count += 1
            if lines.WELL_SHAPED(before) and len(raw) == len(lines.MARK) + lines.ANSWER_DIGITS:
                self.look(place, before, raw[len(lines.MARK):])

    def look(self, place, call, answer):
        """Looks at an answer behind its call."""
        if lines.is_digits(answer, lines.ANSWER_DIGITS):
            refuse_lacking(place, lines.read_call(call), lines.answer_of(answer), self.outfit)
