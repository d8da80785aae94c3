"""A telling on standard output, row by row as the log comes, and the summary behind them."""

from desk.explain.faults import together
from desk.log import lines, standard
from desk.log.layout import spoilt_told
from desk.log.words import HEADING, row, wrapped

MOST_HELD = 100  # so many rows are held back before a first call


class Rows:
    """The rows of a telling on standard output. Those of the layout are held back until the first call, so that the telling can open
    with what is wrong with them; where something else goes to standard output, it says nothing."""

    def __init__(self, telling, speaks):
        self.telling, self.speaks, self.held, self.begun = telling, speaks, [], False

    def take(self, told):
        """One more row; None is none. Where nothing is to be said, none is kept."""
        if not told or not self.speaks:
            return
        if self.begun:
            standard.say(told)
            return
        self.held.append(told)
        if self.telling.station or len(self.held) > MOST_HELD:
            self.give()

    def give(self):
        """Writes what is held, behind the heading where nothing was written yet."""
        if self.held and not self.begun:
            self.begun = True
            for sentence in spoilt_told(self.telling.counts.spoilt if self.telling.entries else None):
                standard.say(wrapped(f"Beware: {sentence}", "", "  ", self.telling.width) + "\n")
            standard.say(row(*HEADING, self.telling.width))
        for told in self.held:
            standard.say(told)
        self.held = []

    def end(self):
        """Writes the rest; gives whether there was any row."""
        self.give()
        return self.begun


def tell_all(answers, telling, progress, speaks=True):
    """Tells the whole log on standard output, where it speaks; gives the exit code."""
    place, rows = 0, Rows(telling, speaks)
    try:
        for line in together(answers.followed(), telling.chosen.borders() if telling.chosen else ()):
            rows.take(telling.tell(line))
            place = (line.place or place) + line.repeats
            if progress:
                progress.note(place)
    except lines.OutputEnds:
        rows.take(row(place + 1, "", ["Here the monitor's answers break off."], telling.width))
        rows.end()
        return 1
    finally:
        if progress:
            progress.end()
    telling.counts.passed = answers.passed.count if answers.passed else 0
    summary = ("\n" if telling.wants_rows() else "") + telling.close()
    if not rows.end() and telling.wants_rows() and speaks:
        standard.say("No line of the log is of the kind that is asked for.")
    if speaks:
        standard.say(summary)
    return 0
