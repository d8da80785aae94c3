"""A timeline cut into strips of so many columns, and the strips placed on sheets: A4 on its side where the columns allow.

Measures are points. A strip that is too high for a sheet goes on over several, a part of its rows on each, and every part
has the heads of its columns; small strips share a sheet.
"""

from collections import namedtuple

from desk.explain.looks import PLAIN, SMALL, width_of
from desk.explain.timeline import lanes
from desk.log.refusals import meaning_of, number_told

COLUMNS = 25                   # columns in a strip, unless another number is asked for
WIDTH, HEIGHT = 785, 534       # what A4 on its side leaves within 10 mm of its edges
EDGE, LEFT = 6, 54             # what stays free at both sides, and where the columns begin, right of the names
LEAST_COLUMN = 18              # a column's width at the least; with more of them a sheet is wider than A4
MARK, BAR, LANE, GAP = 5, 10.5, 9.5, 2
STILL = 10                     # the height of a row in which nothing happens
MOST_LANES = 25                # so many lanes fit a sheet; a process with more has several rows
BETWEEN = 12                   # what stays free below a strip
BRACKET = 11                   # the height of a ring's bracket
LEGEND, LINE = 70, 10          # the height of title and legend without refusals, and of a line of these

# A process in a strip: its number, its states, its buffers with their lanes, the room for marks, and how high the row is.
Row = namedtuple("Row", "process states buffers mark height")
# Some columns of a run from the first on, with their rows, how high their heads are, and the brackets of its rings between the two.
Strip = namedtuple("Strip", "first columns rows head brackets")
# A ring's bracket: from which column to before which, whether the ring begins and ends there, its lane, and its way round.
Bracket = namedtuple("Bracket", "first end begins ends lane way")
# All strips or parts of one on a sheet, each with the height at which it begins; the refusals, wrapped; and the sheet's height.
Sheet = namedtuple("Sheet", "parts refusals height")


class Shape:
    """The measures that follow from the number of columns."""

    def __init__(self, columns):
        self.columns = columns
        self.column = max((WIDTH - LEFT - EDGE) / columns, LEAST_COLUMN)
        self.width = LEFT + columns * self.column + EDGE
        self.height = HEIGHT * self.width / WIDTH


def cut_by(stretches, columns):
    """The stretches cut into those of each strip, by strip and process."""
    pieces = {}
    for stretch in stretches:
        for strip in range(stretch.first // columns, (stretch.end - 1) // columns + 1):
            start = strip * columns
            piece = stretch._replace(first=max(stretch.first, start), end=min(stretch.end, start + columns))
            pieces.setdefault((strip, stretch.process), []).append(piece)
    return pieces


def rows_of(process, states, buffers):
    """A process's row in a strip, or its rows where it has more lanes than fit a sheet."""
    placed, count = lanes(buffers)
    if not buffers and all(stretch.look == "stopped" for stretch in states):
        yield Row(process, states, placed, 0, STILL)
        return
    for first in range(0, max(count, 1), MOST_LANES):
        mine = [(stretch, lane - first) for stretch, lane in placed if first <= lane < first + MOST_LANES]
        yield Row(process, states, mine, MARK, MARK + BAR + min(count - first, MOST_LANES) * LANE + GAP)


def head_of(columns):
    """How high the heads of some columns are: the longest title or refusal, written upwards, and the line's number below it."""
    return 18 + max(width_of(words, PLAIN) for column in columns for words in (column.title, refusal_of(column)))


def refusal_of(column):
    """What stands beside the title of a refused call."""
    return f"refused {column.refusal}" if column.refusal else ""


def strips(timeline, columns):
    """The strips of a run."""
    states, buffers = (cut_by(stretches, columns) for stretches in timeline.stretches())
    for strip, first in enumerate(range(0, len(timeline.columns), columns)):
        mine = timeline.columns[first:first + columns]
        rows = [row for p in range(1, len(timeline.names) + 1)
                for row in rows_of(p, states.get((strip, p), []), buffers.get((strip, p), []))]
        yield Strip(first, mine, rows, head_of(mine), brackets(timeline, first, first + len(mine)))


def brackets(timeline, first, end):
    """The brackets of the rings that last in some columns, each in a lane of its own where they overlap."""
    placed, taken = [], []
    for ring in timeline.rounds.values():
        until = len(timeline.columns) if ring.end is None else ring.end
        if ring.first >= end or until <= first:
            continue
        start, stop = max(ring.first, first), min(until, end)
        lane = next((i for i, over in enumerate(taken) if over <= start), len(taken))
        taken[lane:lane + 1] = [stop]
        placed.append(Bracket(start, stop, ring.first >= first, ring.end is not None and until <= end, lane, ring.way))
    return placed


def over_rows(part):
    """How high the brackets over the rows are."""
    return BRACKET * (1 + max((bracket.lane for bracket in part.brackets), default=-1))


def flowed(pieces, width):
    """Pieces of text in lines of this width, no piece cut."""
    flow = []
    for piece in pieces:
        if flow and width_of(f"{flow[-1]}   {piece}", SMALL) <= width:
            flow[-1] += f"   {piece}"
        else:
            flow.append(piece)
    return flow


def refusals_told(parts, width):
    """The refusals in some strips with their meanings, in lines."""
    numbers = sorted({column.refusal for part in parts for column in part.columns if column.refusal})
    return flowed([f"refused {number_told(number)}: {meaning_of(number)}." for number in numbers], width - 2 * EDGE)


def height_of(part):
    """How high a strip, or a part of one, is."""
    return part.head + over_rows(part) + sum(row.height for row in part.rows) + BETWEEN


def sheet_of(parts, shape):
    """A sheet with these strips or parts."""
    refusals = refusals_told(parts, shape.width)
    y, placed = LEGEND + LINE * len(refusals), []
    for part in parts:
        placed.append((y, part))
        y += height_of(part)
    return Sheet(placed, refusals, y)


def parted(strip, shape):
    """A strip in parts that fit a sheet, each with as many rows as it takes."""
    rows = []
    for row in strip.rows:
        if rows and sheet_of([strip._replace(rows=[*rows, row])], shape).height > shape.height:
            yield strip._replace(rows=rows)
            rows = []
        rows = [*rows, row]
    yield strip._replace(rows=rows)


def sheets(timeline, shape):
    """The sheets of a run: as many strips on each as fit."""
    parts = []
    for strip in strips(timeline, shape.columns):
        for part in parted(strip, shape):
            if parts and sheet_of([*parts, part], shape).height > shape.height:
                yield sheet_of(parts, shape)
                parts = []
            parts.append(part)
    if parts:
        yield sheet_of(parts, shape)
