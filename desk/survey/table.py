"""The findings as a table, a row a log, and below it what was watched and the rates, as wide as the terminal or 80 columns."""

from desk.log import standard
from desk.log.refusals import how_many
from desk.log.words import WIDTH, wrapped
from desk.survey.kinds import KINDS
from desk.survey.rates import ANY, UNITS, told

HEADING = ("log", "calls", "ticks", "begun", "line", "kind")
WIDTHS = (9, 8, 7, 9)  # of the numbers' columns
KIND_WIDTH = 16
LEAST_NAME = 10
LEGEND = ("Each log is held to the proved monitor, and counts as watched up to the line at which it strays. So far go its calls, ticks and "
          "conversations begun.")


class Table:
    """A table that is written row by row, as wide as the terminal; in a narrow one a row takes two lines."""

    def __init__(self, logs, width=None):
        self.width = width or standard.width(WIDTH)
        longest = max([len("together"), *(len(log.name) for log in logs)])
        room = self.width - sum(WIDTHS) - len(WIDTHS) - 2 - KIND_WIDTH
        self.is_narrow = room < LEAST_NAME
        self.name = self.width - 2 - KIND_WIDTH if self.is_narrow else max(LEAST_NAME, min(longest, room))

    def row(self, name, numbers, kind=""):
        """A row: a name, whose beginning is cut off where it is too long, numbers to the right, and the kind."""
        shown = name if len(name) <= self.name else ".." + name[2 - self.name:]
        cells = [f"{number:,}" if isinstance(number, int) else number for number in numbers]
        right = " ".join(f"{cell:>{width}}" for cell, width in zip(cells, WIDTHS))
        if self.is_narrow:
            return f"{shown:<{self.name}}  {kind}".rstrip() + f"\n{right}".rstrip()
        return f"{shown:<{self.name}} {right}  {kind}".rstrip()

    def heading(self):
        """What stands over the rows."""
        return f"{wrapped(LEGEND, '', '', self.width)}\n\n{self.row(HEADING[0], HEADING[1:5], HEADING[5])}"

    def of(self, finding):
        """The row of a log; of one that isn't judged, why."""
        if finding.reason:
            head = f"{finding.log.name} "
            return wrapped(f"{head}not judged: {finding.reason}.", "", "  ", self.width)
        numbers = (finding.calls, finding.ticks, finding.conversations, finding.strayed if finding.strayed else "-")
        return self.row(finding.log.name, numbers, finding.kind or ("torn at its end" if finding.torn else ""))

    def total(self, watched):
        """The last row."""
        strays = f"{watched.strayed():,} strayed"
        return self.row("together", (watched.calls, watched.ticks, watched.conversations, ""), strays)

    def rates(self, survey):
        """What was watched, and the rate of each kind."""
        yield wrapped(watched_told(survey), "", "", self.width)
        margin = " " * (4 if self.is_narrow else 20)
        for kind in (*KINDS, ANY):
            sentences = [f"{told(survey.all.rate(kind, unit))}." for unit in UNITS]
            if self.is_narrow:
                yield f"  {kind}"
            first = margin if self.is_narrow else f"  {kind:<16}  "
            yield from (wrapped(sentence, head, margin, self.width) for sentence, head in zip(sentences, (first, margin)))
        if survey.all.strayed():
            yield wrapped("./compare --to-monitor LOG tells a stray whole: what was asked, what came back and what was due.", "", "", self.width)


def watched_told(survey):
    """What was watched, as sentences."""
    watched = survey.all
    counts = ", ".join(how_many(count, thing) for count, thing in ((watched.conversations, "conversation"), (watched.calls, "call"),
                                                                   (watched.ticks, "tick")))
    said = [f"Watched: {how_many(watched.judged, 'log')}{survey.shops_told()}, {counts}; {how_many(watched.strayed(), 'log')} strayed."]
    if watched.unjudged:
        said.append(f"Not judged, and not counted: {how_many(watched.unjudged, 'log')}.")
    if watched.torn:
        said.append(f"Torn at the end, and counted up to their last whole call: {how_many(watched.torn, 'log')}.")
    return " ".join(said)
