"""The findings and rates for other programs: as CSV, and as one object of JSON. Each log is written as it comes."""

import csv
import io
import json

from desk.survey.intervals import CERTAINTY
from desk.survey.kinds import KINDS
from desk.survey.rates import ANY, UNITS

LOG_COLUMNS = ("log", "shop", "month", "lines", "calls", "ticks", "conversations", "strayed", "kind", "torn", "reason")
RATE_COLUMNS = ("of", "name", "kind", "unit", "seen", "watched", "rate", "low", "high")


def csv_row(cells):
    """A row of CSV, without its line's end; nothing is an empty cell."""
    row = io.StringIO()
    csv.writer(row, lineterminator="").writerow(["" if cell is None else cell for cell in cells])
    return row.getvalue()


def parts_of(finding):
    """A finding by the names of its parts."""
    settings = finding.log.settings
    return {"name": finding.log.name, "shop": settings.shop, "month": settings.month, "lines": finding.lines, "calls": finding.calls,
            "ticks": finding.ticks, "conversations": finding.conversations, "strayed": finding.strayed, "kind": finding.kind,
            "torn": finding.torn, "reason": finding.reason}


def csv_log(finding):
    """A log as a row of CSV."""
    parts = parts_of(finding)
    return csv_row([*list(parts.values())[:-2], "yes" if finding.torn else None, finding.reason])


def groups(survey):
    """What there are rates of: all logs, each shop, each month."""
    yield "all", None, survey.all
    yield from (("shop", name, watched) for name, watched in sorted(survey.shops.items()))
    yield from (("month", name, watched) for name, watched in sorted(survey.months.items()))


def csv_rates(survey):
    """The rates as rows of CSV."""
    for of, name, watched in groups(survey):
        for kind in (*KINDS, ANY):
            for rate in (watched.rate(kind, unit) for unit in UNITS):
                yield csv_row([of, name, kind, rate.unit, rate.seen, rate.watched, rate.rate, rate.low, rate.high])


def rates_of(watched):
    """The rates of some logs, by kind and unit."""
    return [{"kind": kind, "seen": watched.rate(kind, UNITS[0]).seen,
             **{unit: {"watched": rate.watched, "rate": rate.rate, "low": rate.low, "high": rate.high}
                for unit, rate in ((unit, watched.rate(kind, unit)) for unit in UNITS)}} for kind in (*KINDS, ANY)]


def counted(watched):
    """What was watched of some logs."""
    return {"judged": watched.judged, "unjudged": watched.unjudged, "strayed": watched.strayed(), "torn": watched.torn, "calls": watched.calls,
            "ticks": watched.ticks, "conversations": watched.conversations}


class Json:
    """One object, written in pieces: the logs one by one, the rates at the end."""

    def __init__(self):
        self.begun = False

    def log(self, finding):
        """A log, and before it what the object begins with."""
        lead = "," if self.begun else '{"logs": [\n'
        self.begun = True
        return f"{lead} {json.dumps(parts_of(finding))}"

    def end(self, survey):
        """The rest of the object."""
        by = {key: [{"name": name, **counted(watched), "rates": rates_of(watched)} for name, watched in sorted(of.items())]
              for key, of in (("shops", survey.shops), ("months", survey.months))}
        rest = {"certainty": CERTAINTY, "watched": counted(survey.all), "rates": rates_of(survey.all), **by}
        return "], " + json.dumps(rest)[1:]
