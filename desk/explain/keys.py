"""The keys of a screen: pause, step, back and end, where standard input is the keyboard and not the log."""

import os
import select
import termios
import tty

from desk.log import standard

PAUSE, STEP, BACK, END = "pause", "step", "back", "end"
KEYS = {b" ": PAUSE, b"p": PAUSE, b"n": STEP, b"\n": STEP, b"\r": STEP, b"\x1b[C": STEP, b"\x1b[B": STEP, b"b": BACK, b"\x1b[D": BACK,
        b"\x1b[A": BACK, b"q": END, b"\x04": END}
LEGEND = "space pauses, n steps, b goes back, q ends"


class Keys:
    """The keyboard, taken key by key; with a with-statement it is given back as it was. Where there is none, no key ever comes."""

    def __init__(self, log):
        self.there = log != standard.IN and os.isatty(standard.IN)
        self.before = None

    def __enter__(self):
        if self.there:
            self.before = termios.tcgetattr(standard.IN)
            tty.setcbreak(standard.IN)
        return self

    def __exit__(self, *_):
        if self.before is not None:
            termios.tcsetattr(standard.IN, termios.TCSADRAIN, self.before)

    def wait(self, seconds):
        """The next key that means something, or None where none came in so many seconds; None seconds are no limit."""
        if not select.select([standard.IN] if self.there else [], [], [], seconds)[0]:
            return None
        typed = os.read(standard.IN, 16)
        return KEYS.get(typed, KEYS.get(typed[:1])) if typed else END
