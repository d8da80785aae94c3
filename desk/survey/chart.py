"""The rates as a picture for print: a row for each shop, month or kind, a dot where the rate is and a line as far as its interval goes.
Measures are points; it has no scripts, and reads in black and white."""

from math import ceil, floor, log10

from desk.explain.looks import text, width_of
from desk.log.refusals import how_many
from desk.survey.kinds import KINDS
from desk.survey.note import month_told
from desk.survey.options import KINDS as BY_KINDS
from desk.survey.options import MONTHS, SHOPS
from desk.survey.rates import ANY, CONVERSATIONS, NO_MONTH

PAPER, MARGIN, GAP = 520, 16, 10     # the whole width, and what stays free at the sides and between columns
ROW, TOP, AXIS = 20, 66, 34          # heights: of a row, above the first, and below the last
LETTERS, TITLE = 10, 13
MOST_LABEL = 150
STEPS = 6                            # so many marks at most on the axis
MOST_ROWS, BEYOND = 0.75, 4          # a line is cut off that reaches so many times as far as this part of the rows does
DOT, CAP = 3.2, 3.5
STYLE = f"""
svg text {{ font: {LETTERS}px Helvetica, Arial, "Liberation Sans", sans-serif; fill: #111 }}
svg .title {{ font-size: {TITLE}px; font-weight: bold }} svg .whole {{ font-weight: bold }} svg .quiet {{ fill: #444 }}
svg .grid {{ stroke: #ddd; stroke-width: .6 }} svg .rule {{ stroke: #111; stroke-width: .8 }}
svg .line {{ stroke: #111; stroke-width: 1.3; fill: none }} svg .dot {{ stroke: #111; stroke-width: 1.3 }}
"""
END_AT, MIDDLE = ' text-anchor="end"', ' text-anchor="middle"'


def rows_of(survey, rows, unit):
    """The picture's rows, a label and a rate each, that of all together last; and what they are."""
    rows = rows or (SHOPS if len(survey.shops) > 1 else BY_KINDS)
    if rows == BY_KINDS:
        return rows, [(kind, survey.all.rate(kind, unit)) for kind in (*KINDS, ANY)]
    of = survey.shops if rows == SHOPS else survey.months
    named = [(month_told(name) if rows == MONTHS and name != NO_MONTH else name, of[name].rate(ANY, unit)) for name in sorted(of)]
    return rows, [*named, ("together", survey.all.rate(ANY, unit))]


def farthest(rates):
    """How far the axis goes: to the end of every interval, but for those that would leave no room for the others."""
    ends = sorted(rate.high for rate in rates[:-1] if rate.rate is not None)
    if not ends:
        return 1.0
    common = max(ends[max(0, floor(MOST_ROWS * len(ends)) - 1)], rates[-1].high)
    return max(end for end in (*ends, common) if end <= BEYOND * common)


def step_of(reach):
    """The distance of the axis's marks: 1, 2 or 5 times a power of ten."""
    power = 10 ** floor(log10(reach / STEPS))
    return next(power * times for times in (1, 2, 5, 10, 20) if reach / (power * times) <= STEPS)


def shortened(words, room):
    """Words that fit a room, their middle cut out if need be."""
    short, left = words, len(words)
    while width_of(short, LETTERS) > room and left > 3:
        left -= 1
        short = f"{words[:(left + 1) // 2]}..{words[len(words) - left // 2:]}"
    return short


class Chart:
    """A picture of some rows: where things stand, and the pieces that it is made of."""

    def __init__(self, rows, survey, kind):
        self.rows, self.survey, self.kind = rows, survey, kind
        rates = [rate for _, rate in rows]
        self.counts = [f"{rate.seen:,} in {rate.watched:,}" if rate.watched else "nothing watched" for rate in rates]
        label = min(MOST_LABEL, max(width_of(words, LETTERS) for words, _ in rows))
        self.left = MARGIN + label + GAP
        self.right = PAPER - MARGIN - GAP - max(width_of(words, LETTERS) for words in self.counts)
        reach = farthest(rates)
        self.scale = 10 ** max(2, ceil(-log10(reach)) + 1)
        self.step = step_of(reach * self.scale)
        self.reach = self.step * max(1, ceil(reach * self.scale / self.step - 1e-9))
        self.bottom = TOP + ROW * len(rows)

    def at(self, rate):
        """Where a rate stands on the axis."""
        return self.left + (self.right - self.left) * rate * self.scale / self.reach

    def heading(self):
        """The title, and what was watched."""
        watched, unit = self.survey.all, self.rows[0][1].unit
        yield text(MARGIN, 24, f"Faults in {self.scale:,} {unit}", "title")
        yield text(MARGIN, 40, f"{how_many(watched.judged, 'log')}{self.survey.shops_told()}, {how_many(getattr(watched, unit), unit[:-1])} watched", "quiet")
        yield text(MARGIN, 54, "dot: what was seen (hollow: nothing); line: as far as it may go, with 95 in 100 certainty", "quiet")

    def axis(self):
        """The marks and numbers of the axis, and the rule below the rows."""
        count = round(self.reach / self.step)
        for mark in range(count + 1):
            x = self.at(mark * self.step / self.scale)
            yield f'<path class="grid" d="M{x:.6g} {TOP - 4}V{self.bottom}"/>\n'
            yield text(x, self.bottom + 14, f"{mark * self.step:,.6g}", "quiet", MIDDLE)
        yield f'<path class="rule" d="M{self.left:.6g} {self.bottom}H{self.right:.6g}"/>\n'
        yield text((self.left + self.right) / 2, self.bottom + 28, f"in {self.scale:,} {self.rows[0][1].unit}", "quiet", MIDDLE)

    def row(self, number):
        """A row: its label, its line and dot, and what was seen in what."""
        (label, rate), y = self.rows[number], TOP + ROW * number + ROW / 2
        is_whole = number == len(self.rows) - 1
        kind = "whole" if is_whole else ""
        if is_whole:
            yield f'<path class="rule" d="M{MARGIN} {y - ROW / 2:.6g}H{PAPER - MARGIN}"/>\n'
        yield text(MARGIN, y + 3.5, shortened(label, MOST_LABEL), kind)
        yield text(PAPER - MARGIN, y + 3.5, self.counts[number], kind, END_AT)
        if rate.rate is not None:
            yield self.line(rate, y)

    def line(self, rate, y):
        """An interval with its ends, or an arrow where it goes on beyond the axis, and the dot of its rate."""
        low, high, end = self.at(rate.low), self.at(rate.high), self.at(self.reach / self.scale)
        cap = f"M{high:.6g} {y - CAP:.6g}v{2 * CAP:.6g}" if high <= end + .01 else f"M{end - 4:.6g} {y - CAP:.6g}l5 {CAP}l-5 {CAP}"
        first = f"M{low:.6g} {y - CAP:.6g}v{2 * CAP:.6g}" if rate.seen else ""
        line = f'<path class="line" d="M{min(low, end - 8):.6g} {y:.6g}H{min(high, end):.6g}{first if low < end - 8 else ""}{cap}"/>\n'
        if self.at(rate.rate) > end:
            return line
        return line + f'<circle class="dot" cx="{self.at(rate.rate):.6g}" cy="{y:.6g}" r="{DOT}" fill="{"#111" if rate.seen else "#fff"}"/>\n'

    def pieces(self):
        """The whole picture."""
        height = self.bottom + AXIS + 6
        yield (f'<svg xmlns="http://www.w3.org/2000/svg" width="{PAPER}pt" height="{height}pt" viewBox="0 0 {PAPER} {height}" '
               f'style="max-width:100%;height:auto">\n<title>Faults in {self.scale:,} {self.rows[0][1].unit}, by {self.kind}</title>\n'
               f'<style>{STYLE}</style>\n<rect width="{PAPER}" height="{height}" fill="#fff"/>\n')
        yield from self.heading()
        yield from self.axis()
        for number in range(len(self.rows)):
            yield from self.row(number)
        yield "</svg>\n"


def chart_of(survey, rows=None, unit=None):
    """The picture of a survey's rates, as SVG."""
    kind, listed = rows_of(survey, rows, unit or CONVERSATIONS)
    return "".join(Chart(listed, survey, kind).pieces())
