"""A run as SVG pictures, one a sheet: a row a process, a column a call, strips of columns below each other.

In each row a bar says what the process does; below it lie the buffers that are with the process.
"""

from collections import namedtuple
from xml.sax.saxutils import escape

from desk.explain.looks import BUFFER_LOOKS, MIDDLE, SMALL, STATE_LOOKS, STYLE, box, definitions, label, mark, text, way, width_of
from desk.explain.strips import BAR, BRACKET, COLUMNS, EDGE, LANE, LEFT, MARK, WIDTH, Shape, over_rows, refusal_of, sheets
from desk.log.refusals import plural

# An arrow: its place from the left, where it starts and ends, and from whose row to whose it leads.
Arrow = namedtuple("Arrow", "x start end giver taker")
NOTE = "A column is a call and shows how it left things; the numbers are the log's lines. Lines that are no calls are left out."
PASSED = " At a broken line calls are left out."
MARKS = "makes the call", "is current at a call from outside", "a message sent, or an answer back", "1 A>B: buffer 1, sent by A to B"


def looks_told(y, heading, looks):
    """A line of the legend: what some looks mean."""
    pieces, x = [text(EDGE, y + 7.5, heading)], LEFT
    for look, meaning in looks.items():
        pieces.append(box(x, y, 22, 10, look) + text(x + 26, y + 7.5, meaning))
        x += 40 + width_of(meaning, 8)
    return "".join(pieces)


def marks_told(y):
    """The line of the legend for marks and arrows."""
    caller, outside, sent, numbered = MARKS
    places = [LEFT + 40]
    for words in (caller, outside, sent):
        places.append(places[-1] + 26 + width_of(words, 8))
    arrow = places[2] - 14
    return (text(EDGE, y + 7.5, "A call") + mark(places[0] - 8, y + 3, True) + text(places[0], y + 7.5, caller)
            + mark(places[1] - 8, y + 3, False) + text(places[1], y + 7.5, outside)
            + f'<path class="way" d="M{arrow} {y + 5}h11"/><circle cx="{arrow}" cy="{y + 5}" r="1.5"/>\n'
            + text(places[2], y + 7.5, sent) + text(places[3] - 12, y + 7.5, numbered))


def legend(refusals):
    """What the looks mean, the marks, and the refusals on the sheet."""
    return (looks_told(31, "A process", STATE_LOOKS) + looks_told(44, "A buffer", BUFFER_LOOKS) + marks_told(57)
            + "".join(text(EDGE, 77 + 10 * i, line, "small refused") for i, line in enumerate(refusals)))


def heads(part, y, bottom, shape):
    """The titles of the calls, written upwards to where the rows begin, the log's line numbers under them, the grid."""
    pieces = []
    apart = 1 + int(width_of(str(part.columns[-1].place), SMALL) // shape.column)
    for i, column in enumerate(part.columns):
        x = LEFT + i * shape.column
        middle = x + shape.column / 2
        pieces.append(f'<path class="{"gap" if column.passed else "grid"}" d="M{x:.6g} {y + 2:.6g}V{bottom:.6g}"/>\n')
        for shift, words in ((-1, column.title), (7.5, refusal_of(column))):
            place = middle + shift + (0 if column.refusal else 4)
            turned = f' transform="rotate(-90 {place:.6g} {y + part.head - 12:.6g})"'
            pieces.append(text(place, y + part.head - 12, words, "refused" if column.refusal else "", turned) if words else "")
        if i % apart == 0:
            pieces.append(text(middle, y + part.head - 3, str(column.place), "small", MIDDLE))
    return "".join(pieces)


def bars(row, part, y, name, shape):
    """The stretches of a row with their places: the height, the left side and the width, how high they are, and their titles."""
    for stretch, top, height, meaning in (
            *((stretch, y + row.mark, BAR, f"{name}: {STATE_LOOKS[stretch.look]}") for stretch in row.states),
            *((stretch, y + MARK + BAR + 1 + lane * LANE, LANE - 1, f"{stretch.labels[0]}: {BUFFER_LOOKS[stretch.look]}")
              for stretch, lane in row.buffers)):
        count = stretch.end - stretch.first
        yield stretch, LEFT + (stretch.first - part.first) * shape.column + 1, top, count * shape.column - 2, height, meaning


def labels(stretch, x, y, width, height, arrows):
    """The label of a bar, of a long one several times, beside the arrows that cross it."""
    pieces = 1 + (stretch.end - stretch.first) // (COLUMNS + 1)
    part = width / pieces
    crossing = [arrow.x for arrow in arrows if min(arrow.start, arrow.end) < y + height and max(arrow.start, arrow.end) > y]
    return "".join(label(x + i * part, y + height / 2, part, stretch.labels, stretch.look, crossing) for i in range(pieces))


def process_row(row, part, y, name, shape, arrows):
    """One process: its name, its bar and the lanes of its buffers; and what lies over the arrows, labels and marks."""
    placed = list(bars(row, part, y, name, shape))
    under = [f'<path class="grid" d="M0 {y:.6g}H{shape.width:.6g}"/>\n', text(EDGE, y + row.mark + 8.2, name, "name")]
    under += [box(x, top, width, height, stretch.look, meaning) for stretch, x, top, width, height, meaning in placed]
    over = [labels(stretch, x, top, width, height, arrows) for stretch, x, top, width, height, _ in placed]
    over += [mark(LEFT + (i + .5) * shape.column, y + 1, column.called)
             for i, column in enumerate(part.columns) if column.current == row.process]
    return tuple(f'<g data-process="{row.process}">\n{"".join(pieces)}</g>\n' for pieces in (under, over))


def ways(part, tops, bottom, shape):
    """Each arrow from who sent to who got it; one that leads to a row on another sheet ends at this one's edge."""
    def middle(process):
        if process in tops:
            return tops[process] + MARK + BAR / 2
        return tops[min(tops)] if process < min(tops) else bottom

    for i, column in enumerate(part.columns):
        for k, (giver, taker) in enumerate(column.went):
            start, end = middle(giver), middle(taker)
            if start != end:
                end += 0 if taker not in tops else -BAR / 2 if end > start else BAR / 2
                yield Arrow(LEFT + i * shape.column + 3.5 + 3 * (k % 4), start, end, giver, taker)


def tops_of(part, y):
    """The height at which each row begins, and where the last ends."""
    heights = [y + part.head + over_rows(part)]
    for row in part.rows:
        heights.append(heights[-1] + row.height)
    return heights


def brackets_drawn(part, y, shape):
    """The rings over the rows: a bracket from the column that closed one to the one that ended it, open where it goes on."""
    pieces = []
    for bracket in part.brackets:
        top = y + part.head + BRACKET * bracket.lane + 4
        x, end = (LEFT + (column - part.first) * shape.column for column in (bracket.first, bracket.end))
        begins, ends = (f"M{x + 1:.6g} {top + 5:.6g}V{top:.6g}" if bracket.begins else f"M{x:.6g} {top:.6g}"), end - (1 if bracket.ends else 0)
        pieces.append(f'<path class="round" d="{begins}H{ends:.6g}{f"V{top + 5:.6g}" if bracket.ends else ""}"/>\n')
        words = next((words for words in (f"ring {bracket.way}", "ring") if width_of(words, SMALL) <= end - x - 8), "")
        half = width_of(words, SMALL) / 2 + 2
        middle = (x + end) / 2
        if words:
            pieces.append(f'<rect x="{middle - half:.6g}" y="{top - 4:.6g}" width="{2 * half:.6g}" height="8" fill="#fff"/>\n'
                          + text(middle, top + 2.5, words, "small refused", MIDDLE))
    return "".join(pieces)


def drawn(part, y, names, shape):
    """A strip, or a part of one, from a height on."""
    *heights, at = tops_of(part, y)
    tops = {row.process: top for row, top in reversed(list(zip(part.rows, heights)))}
    arrows = list(ways(part, tops, at, shape))
    rows = [process_row(row, part, top, names[row.process - 1], shape, arrows) for row, top in zip(part.rows, heights)]
    under, over = ("".join(pieces) for pieces in zip(*rows))
    calls = " ".join(str(column.place) for column in part.columns)
    ground = (f'<rect class="calls" x="{LEFT}" y="{y:.6g}" width="{len(part.columns) * shape.column:.6g}" '
              f'height="{at - y:.6g}" fill="#fff"/>\n')
    return (f'<g class="strip" data-lines="{calls}">\n{ground}{heads(part, y, at, shape)}{brackets_drawn(part, y, shape)}{under}'
            f'<path class="grid" d="M0 {at:.6g}H{shape.width:.6g}"/>{"".join(way(*arrow) for arrow in arrows)}{over}</g>\n')


class Picture:
    """The sheets of a run, and the log's name."""

    def __init__(self, timeline, log="", columns=COLUMNS):
        self.timeline, self.shape = timeline, Shape(columns)
        shown, calls = len(timeline.columns), plural(timeline.calls, "call")
        self.chosen = shown < timeline.calls
        what = f"{shown} chosen of {calls}" if self.chosen else f"a run of {calls}"
        self.title = f"{log}: {what}" if log else f"{what[0].upper()}{what[1:]}"
        self.sheets = list(sheets(timeline, self.shape))

    def shown(self, number, sheet):
        """Which calls and processes a sheet shows, and which sheet it is."""
        first, last = sheet.parts[0][1], sheet.parts[-1][1]
        end = last.first + len(last.columns)
        rows = self.rows_shown(first) if len(sheet.parts) == 1 else ""
        return (f"calls {first.first + 1} to {end}, lines {first.columns[0].place} to {last.columns[-1].place}{rows}; "
                f"sheet {number} of {len(self.sheets)}")

    def rows_shown(self, part):
        """Which processes a part of a strip shows; nothing where it is all of them."""
        first, last, count = part.rows[0].process, part.rows[-1].process, len(self.timeline.names)
        if (first, last) == (1, count):
            return ""
        return f", process {first} of {count}" if first == last else f", processes {first} to {last} of {count}"

    def inside(self, number, sheet):
        """All that is drawn on a sheet."""
        strips = "".join(drawn(part, y, self.timeline.names, self.shape) for y, part in sheet.parts)
        return (text(EDGE, 13, self.title, "title") + text(self.shape.width - EDGE, 13, self.shown(number, sheet), "", ' text-anchor="end"')
                + text(EDGE, 25, NOTE + (PASSED if self.chosen else "")) + legend(sheet.refusals) + strips)

    def painted(self):
        """Each sheet as a picture of its own."""
        paper = "A4 landscape" if self.shape.width <= WIDTH else f"{self.shape.width + 60:.6g}pt {self.shape.height + 60:.6g}pt"
        style = f"<style>@page {{ size: {paper}; margin: 10mm }}{STYLE}</style>\n{definitions()}"
        for number, sheet in enumerate(self.sheets, 1):
            yield (f'<?xml version="1.0" encoding="UTF-8"?>\n<svg xmlns="http://www.w3.org/2000/svg" width="{self.shape.width:.6g}pt" '
                   f'height="{sheet.height:.6g}pt" viewBox="0 0 {self.shape.width:.6g} {sheet.height:.6g}">\n'
                   f'<title>{escape(self.title)}, {self.shown(number, sheet)}</title>\n{style}'
                   f'<rect width="100%" height="100%" fill="#fff"/>\n{self.inside(number, sheet)}</svg>\n')

    def inlaid(self):
        """Each sheet for a page, which has the style and the head of the arrows."""
        for number, sheet in enumerate(self.sheets, 1):
            yield (f'<figure class="sheet" style="aspect-ratio: {self.shape.width:.6g} / {sheet.height:.6g}">'
                   f'<svg viewBox="0 0 {self.shape.width:.6g} {sheet.height:.6g}" role="img" aria-label="{self.shown(number, sheet)}">\n'
                   f'{self.inside(number, sheet)}</svg></figure>\n')
