"""What was watched and what was seen, all logs together and for each shop and month; and rates in a person's words."""

from collections import namedtuple
from math import floor

from desk.log.refusals import how_many
from desk.survey.intervals import interval
from desk.survey.kinds import KINDS

CONVERSATIONS, TICKS = "conversations", "ticks"
UNITS = (CONVERSATIONS, TICKS)
ANY = "any of these"
LEAST_SCALE, LEAST_WIDTH = 100, 5  # a rate is told in so many things at least, and its interval so wide
NO_MONTH = "no month named"
CERTAIN = "with 95 in 100 certainty"

# How often something was seen in how many things watched, the rate, and the ends of its interval, each for one thing; these are None
# where nothing was watched.
Rate = namedtuple("Rate", "seen watched unit rate low high")


def rate_of(seen, watched, unit):
    """A rate with its interval."""
    if not watched:
        return Rate(seen, 0, unit, None, None, None)
    low, high = interval(seen)
    return Rate(seen, watched, unit, seen / watched, low / watched, high / watched)


class Watched:
    """Some logs, counted: those judged and not, lines, calls, ticks and conversations up to the strays, and the strays by kind."""

    def __init__(self):
        self.judged, self.unjudged, self.torn, self.calls, self.ticks, self.conversations = 0, 0, 0, 0, 0, 0
        self.seen = dict.fromkeys(KINDS, 0)

    def take(self, finding):
        """One more log."""
        if finding.reason:
            self.unjudged += 1
            return
        self.judged += 1
        self.torn += finding.torn
        self.calls += finding.calls
        self.ticks += finding.ticks
        self.conversations += finding.conversations
        if finding.kind:
            self.seen[finding.kind] += 1

    def strayed(self):
        """How many logs strayed."""
        return sum(self.seen.values())

    def rate(self, kind, unit):
        """The rate of a kind, or of all together."""
        return rate_of(self.strayed() if kind == ANY else self.seen[kind], getattr(self, unit), unit)


class Survey:
    """All logs together, and those of each shop and of each month."""

    def __init__(self):
        self.all, self.shops, self.months = Watched(), {}, {}

    def take(self, finding):
        """One more log."""
        settings = finding.log.settings
        self.all.take(finding)
        self.shops.setdefault(settings.shop, Watched()).take(finding)
        self.months.setdefault(settings.month or NO_MONTH, Watched()).take(finding)

    def shops_told(self):
        """Of how many shops the logs are that were judged, where they are several, as the end of a count of logs."""
        count = sum(watched.judged > 0 for watched in self.shops.values())
        return f" of {how_many(count, 'shop')}" if count > 1 else ""


def scale_of(rate):
    """In how many things a rate is told: so many that it is 1 or more, and that its interval is some numbers wide."""
    scale = LEAST_SCALE
    while rate.rate * scale < 1 and rate.seen or (rate.high - rate.low) * scale < LEAST_WIDTH:
        scale *= 10
    return scale


def nearest(number):
    """The nearest whole number; of two the larger."""
    return floor(number + 0.5)


def between(rate, scale):
    """The ends of an interval in so many things: the lower rounded down, the upper to the nearest number, and to 1 at the least."""
    low = floor(rate.low * scale)
    return f"{low:,}" if low else "less than 1", f"{max(1, nearest(rate.high * scale)):,}"


def about_told(rate, unit=""):
    """A rate and its bounds, in so many things, which may be named; of none seen the upper bound."""
    scale = scale_of(rate)
    low, high = between(rate, scale)
    things = f"{scale:,}{f' {unit}' if unit else ''}"
    if not rate.seen:
        return f"at most {high} in {things}"
    return f"about {nearest(rate.rate * scale):,} in {things}, and between {low} and {high}"


def told(rate):
    """A rate in words: 3 in 41,200 conversations: about 7 in 100,000, and between 1 and 21 with 95 in 100 certainty."""
    if rate.rate is None:
        return f"no {rate.unit} were watched, so nothing can be said"
    unit = rate.unit if rate.watched != 1 else rate.unit[:-1]
    return f"{f'{rate.seen:,}' if rate.seen else 'none'} in {rate.watched:,} {unit}: {about_told(rate)} {CERTAIN}"
