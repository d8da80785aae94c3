"""The command: has the logs judged, and tells them as a table, a note, CSV or JSON; and draws the rates where that is asked for."""

import os

from desk.explain import canvas
from desk.log import standard
from desk.log.native import build
from desk.log.words import WIDTH, wrapped
from desk.survey.chart import chart_of
from desk.survey.files import logs_of
from desk.survey.judging import Judges
from desk.survey.note import note
from desk.survey.options import options_of, words_of_command
from desk.survey.progress import Progress
from desk.survey.rates import Survey
from desk.survey.table import Table
from desk.survey.written import LOG_COLUMNS, RATE_COLUMNS, Json, csv_log, csv_rates, csv_row

ALL_WELL, NOT_ALL_WELL = 0, 1


class Telling:
    """How findings are told as they come, and what behind them: the text before all, of each log, and at the end. Nothing is said of
    the logs where the rates alone are wanted, nor anywhere where the picture goes to standard output."""

    def __init__(self, wanted, logs):
        self.wanted, self.table, self.json = wanted, Table(logs), Json()
        self.speaks = wanted.picture != canvas.STANDARD_OUTPUT
        self.of_logs = self.speaks and not wanted.rates and not wanted.note

    def begin(self):
        """What stands before the logs."""
        if self.of_logs and self.wanted.csv:
            standard.say(csv_row(LOG_COLUMNS))
        elif self.of_logs and not self.wanted.json:
            standard.say(self.table.heading())

    def log(self, finding):
        """A log."""
        if self.of_logs:
            standard.say((csv_log if self.wanted.csv else self.json.log if self.wanted.json else self.table.of)(finding))

    def end(self, survey):
        """What stands behind the logs."""
        if self.speaks:
            for text in self.closing(survey):
                standard.say(text)

    def closing(self, survey):
        """The texts behind the logs."""
        if self.wanted.json:
            yield self.json.end(survey)
        elif self.wanted.note:
            yield wrapped(note(survey), "", "", standard.width(WIDTH))
        elif self.wanted.csv:
            yield from [csv_row(RATE_COLUMNS), *csv_rates(survey)] if self.wanted.rates else ()
        else:
            yield from (self.table.total(survey.all), "") if self.of_logs else ()
            yield from self.table.rates(survey)

    def comes_at_the_end(self):
        """Whether nothing is said before all is judged."""
        return not self.of_logs


def says_how_far(wanted, telling):
    """Whether someone looks at standard error, and sees no rows there at the same time."""
    seen = os.isatty(standard.ERROR) and (telling.comes_at_the_end() or not os.isatty(standard.OUT))
    return wanted.progress or seen


def survey(wanted):
    """What the command line asks for; gives the exit code."""
    standard.need_output()
    logs = logs_of(wanted.logs, options_of(wanted))
    if wanted.picture is not None:
        canvas.check(canvas.PICTURE, wanted.picture, logs[0].path)  # no other log is a picture either
    build("judge", "survey")
    telling, found = Telling(wanted, logs), Survey()
    progress = Progress(logs, says_how_far(wanted, telling))
    telling.begin()
    try:
        with Judges(progress) as judges:
            for finding in judges.findings(logs):
                found.take(finding)
                telling.log(finding)
    finally:
        progress.end()
    telling.end(found)
    standard.say_all()
    if wanted.picture is not None:
        canvas.put(canvas.PICTURE, wanted.picture, [chart_of(found, wanted.rows, wanted.by)])
    return NOT_ALL_WELL if found.all.strayed() or found.all.unjudged else ALL_WELL


def main(arguments):
    """The whole command; gives its exit code."""
    return standard.command("survey", lambda: survey(words_of_command(arguments)))
