"""The operator's screen over a log: a row for each process, what it does, what it waits for, and how much is with it.

In a terminal the screen is drawn anew at each line of the log, with a pause, and keys pause it, step and go back; elsewhere
each screen is printed below the one before, with no pause and nothing but its text. No line is over 80 columns.
"""

import os
import shutil
import textwrap
import time
from collections import deque

from desk.explain.keys import BACK, END, LEGEND, PAUSE, STEP, Keys
from desk.explain.telling import Telling
from desk.log import lines, standard
from desk.log.layout import PLAIN
from desk.log.station import STOPPED, WAITING
from desk.log.words import WIDTH, wait_told

COLUMNS = "{:<6} {:<8} {:<46} {:>5} {:>5}"  # 74 wide
HEADING = COLUMNS.format("name", "state", "waits for", "queue", "sent")
MOST_BACK = 1000  # so many screens are kept to go back to
SAID_MOST = 3  # so many lines say what was asked and what came back
HOME, TO_LINE_END, TO_SCREEN_END = "\x1b[H", "\x1b[K", "\x1b[J"  # what a terminal is told


def state_told(number, station):
    """What a process does, in a word."""
    if number == station.current:
        return "current"
    state = station.processes[number].state
    if state in WAITING:
        return "waits"
    return "stopped" if state == STOPPED else "running"


def process_row(number, station):
    """The row of a process."""
    process = station.processes[number]
    return COLUMNS.format(process.name, state_told(number, station), wait_told(process, station),
                          station.queue_length(number), station.sent(number)).rstrip()


def screen_lines(head, said, station):
    """The lines of a screen: its head, and the rows below it."""
    lined = textwrap.wrap(said.replace("\xa0", " "), WIDTH, max_lines=SAID_MOST, placeholder=" ..")
    return [head, *lined], [HEADING, *(process_row(p, station) for p in station.processes)]


def cut_to(screen, columns, rows):
    """What of a screen fits a terminal; the last line says how many lines don't."""
    if len(screen) > rows:
        screen = screen[:rows - 1] + [f"and {len(screen) - rows + 1} more lines"]
    return [line[:columns] for line in screen]


class Plain:
    """Screens printed one below the other."""

    def show(self, head, rows):
        """One more screen, and an empty line."""
        standard.say("\n".join([*head, *rows, ""]))

    def end(self):
        """Nothing stays."""


class Ended(Exception):
    """The person at the screen has seen enough."""


class Terminal:
    """Screens drawn in the same place, so many a second. With keys it can be paused, stepped through and gone back in."""

    def __init__(self, speed, keys):
        self.pause, self.keys, self.size = 1 / speed, keys, None
        self.screens, self.back, self.paused = deque(maxlen=MOST_BACK), 0, False  # the last screens, and how many back it is

    def show(self, head, rows):
        """One more screen, a pause after the one before."""
        if self.screens:
            self.linger()
        self.screens.append((head, rows))
        self.draw()

    def linger(self):
        """Waits until the next screen is due; a key may go back before, and then the screens go by again."""
        until = time.monotonic() + self.pause
        while True:
            key = self.keys.wait(None if self.paused else max(0, until - time.monotonic()))
            if key == END:
                raise Ended
            if key in (PAUSE, BACK):
                self.paused = key == BACK or not self.paused
                self.go(1 if key == BACK else 0)
            elif self.back == 0:
                self.paused = self.paused or key == STEP
                return
            else:
                self.paused = self.paused or key == STEP
                self.go(-1)
            until = time.monotonic() + self.pause

    def go(self, back):
        """Goes so many screens back, as far as there are any, and draws the one that is there."""
        self.back = min(self.back + back, len(self.screens) - 1)
        self.draw()

    def end(self):
        """The last screen stays where it was paused, until a key ends it or goes on."""
        while self.paused and self.screens:
            self.linger()

    def draw(self):
        """The screen in the place of the one before; the rows stand where they stood."""
        head, rows = self.screens[-1 - self.back]
        before, self.size = self.size, shutil.get_terminal_size()
        said = f"{head[0]}{', paused' if self.paused else ''}{f', {self.back} back' if self.back else ''}   {LEGEND}" if self.keys.there else head[0]
        kept = [said] + head[1:] + [""] * (1 + SAID_MOST - len(head))
        screen = cut_to(kept + rows, self.size.columns, self.size.lines - 1)
        cleared = "" if self.size == before else TO_SCREEN_END
        standard.say(HOME + cleared + "\n".join(TO_LINE_END + line for line in screen))
        standard.say_all()


def is_drawable():
    """Whether standard output is a terminal that can be drawn on."""
    return os.isatty(standard.OUT) and os.environ.get("TERM", "dumb") != "dumb"


def show_all(answers, count, speed, outfit=PLAIN, log=None):
    """Shows a whole log, of which it may be known how many lines it has, on standard output; gives the exit code. The descriptor of
    the log is no keyboard."""
    if not is_drawable():
        return show(Plain(), answers, count, outfit)
    with Keys(log) as keys:
        try:
            view = Terminal(speed, keys)
            code = show(view, answers, count, outfit)
            view.end()
            return code
        except Ended:
            return 0


def show(view, answers, count, outfit):
    """Shows a whole log in a view; gives the exit code."""
    telling = Telling(outfit=outfit, own=answers.passed is None)
    of = f" of {count}" if count is not None else ""
    line = None
    try:
        for line in answers.followed():
            told = telling.tell(line)
            if line.call is None and line.fault is None:
                standard.say(told)
                return 0
            if telling.station:
                view.show(*screen_lines(f"Line {line.place}{of}", telling.said, telling.station))
    except lines.OutputEnds:
        standard.say("Here the monitor's answers break off.")
        return 1
    if telling.station is None:
        view.show(*screen_lines(f"Line {line.place if line else 0}{of}", "Laid out; no call came.", telling.lay_out()))
    return 0
