"""How far the telling of a long log is, and how long it will still take, on standard error."""

import os
import time

from desk.log import standard

STEP = 10000  # lines between two words of progress


def fits():
    """Whether someone looks at standard error, and sees no rows there at the same time."""
    return os.isatty(standard.ERROR) and not os.isatty(standard.OUT)


class Progress:
    """A word every so many lines of a log, of which it is known or not how many there are."""

    def __init__(self, count):
        self.count, self.began, self.said = count, time.monotonic(), False

    def note(self, place):
        """So many lines are told."""
        if place % STEP == 0:
            self.said = True
            standard.whisper(f"\rexplain: {place}{self.rest(place):<50}")

    def rest(self, place):
        """How many lines there are, and how long they will take; nothing where that isn't known."""
        if self.count is None:
            return " lines"
        left = (time.monotonic() - self.began) / place * max(0, self.count - place)
        return f" of {self.count} lines, about {left:.0f} s left"

    def end(self):
        """Ends the line that was written again and again, if one was."""
        if self.said:
            standard.whisper("\n")
