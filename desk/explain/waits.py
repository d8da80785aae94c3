"""A drawing of who waits for whom at one moment of a run, fit for a newsletter: a box a process, an arrow to whom it waits for.

Whoever waits for an answer waits for the process that the buffer was sent to. Each such chain runs from left to right, into one that
waits for no answer; a ring stands on its own right side, one below the other, and a heavy arrow leads back to its first. Measures
are points.
"""

from xml.sax.saxutils import escape

from desk.explain.looks import MIDDLE, PLAIN, text, width_of
from desk.explain.stuck import rings
from desk.log.refusals import STATES
from desk.log.station import FOR_ANSWER, HELD
from desk.log.words import wait_told

BOX, HIGH, BETWEEN, ROW, EDGE, BACK = 92, 30, 74, 46, 14, 26  # a box, what stays free beside it, a row, the edge, the way back of a ring
NOTE = "An arrow leads from who waits for an answer to who owes it; at it stands the buffer's number."
STYLE = """
text { font: 8px Helvetica, Arial, "Liberation Sans", sans-serif; fill: #111 }
.title { font-size: 12px; font-weight: bold } .name { font-size: 10px; font-weight: bold } .small { font-size: 7px }
.box { fill: #fff; stroke: #333 } .waits { fill: #fde0b5 } .ring { fill: #f6c6c6; stroke: #a00; stroke-width: 1.6 }
.runs { fill: #b7e4c0 } .arrow { stroke: #111; fill: none; marker-end: url(#head) } .round { stroke: #a00; stroke-width: 2; fill: none; marker-end: url(#red) }
"""
HEADS = "".join(f'<marker id="{name}" markerUnits="userSpaceOnUse" markerWidth="8" markerHeight="8" refX="7" refY="4" orient="auto">'
                f'<path d="M0 .5 L8 4 L0 7.5 z" fill="{colour}"/></marker>' for name, colour in (("head", "#111"), ("red", "#a00")))


class Places:
    """Where each process stands: a column, counted from the right, and a row. A process stands right of all who wait for it, and the
    first of these in its own row."""

    def __init__(self, station):
        self.station, self.rings = station, rings(station)
        self.behind = {p: [q for q in station.processes if station.holder(q) == p] for p in station.processes}
        self.members = {p for ring in self.rings for p in ring}
        self.at, self.rows = {}, 0
        for ring in self.rings:
            for p in ring:
                self.put(p, 0)
        for p in station.processes:
            if p not in self.members and not station.holder(p) and self.behind[p]:
                self.put(p, 0)
        self.columns = 1 + max((column for column, _ in self.at.values()), default=0)
        self.alone = [p for p in station.processes if p not in self.at]

    def put(self, p, column):
        """Puts a process and all that wait behind it; a ring's own members are put by themselves."""
        row, self.at[p] = self.rows, (column, self.rows)
        for q in self.behind[p]:
            if q not in self.members:
                self.put(q, column + 1)
        self.rows = max(self.rows, row + 1)

    def corner(self, p):
        """The upper left corner of a box."""
        column, row = self.at[p]
        return EDGE + (self.columns - 1 - column) * (BOX + BETWEEN), 40 + row * ROW


def doing(p, station):
    """What a process does, in a few words."""
    process = station.processes[p]
    if process.state == FOR_ANSWER:
        return f"waits since line {process.since[1]}"
    waits = wait_told(process, station)
    return "runs" if p == station.current else f"waits for {waits}" if waits else STATES[process.state]


def box(p, places, look):
    """A process."""
    x, y = places.corner(p)
    words = doing(p, places.station)
    small = "small" if width_of(words, PLAIN) > BOX - 4 else ""
    return (f'<rect class="box {look}" x="{x}" y="{y}" width="{BOX}" height="{HIGH}" rx="4"/>\n'
            + text(x + BOX / 2, y + 13, places.station.name(p), "name", MIDDLE) + text(x + BOX / 2, y + 24, words, small, MIDDLE))


def label_of(p, station):
    """What stands over an arrow: the buffer, and where it lies."""
    b = station.processes[p].thing
    return f"{b} {'held' if station.buffers[b].standing == HELD else 'queued'}"


def arrow(p, places):
    """The arrow from a process to the one that it waits for."""
    station, q = places.station, places.station.holder(p)
    (x, y), (to, below) = places.corner(p), places.corner(q)
    if p in places.members and q in places.members:
        return round_arrow(p, x, y, below, station)
    middle, start = y + HIGH / 2, x + BOX
    bend = to - 10
    line = f"M{start} {middle}H{to}" if y == below else f"M{start} {middle}H{bend}V{below + HIGH - 6}H{to}"
    return f'<path class="arrow" d="{line}"/>\n' + text(start + (bend - start) / 2, middle - 3, label_of(p, station), "small", MIDDLE)


def round_arrow(p, x, y, below, station):
    """An arrow of a ring: down to the next, or from the last back to the first, round the right side."""
    words = label_of(p, station)
    if below > y:
        return (f'<path class="round" d="M{x + BOX / 2} {y + HIGH}V{below}"/>\n'
                + text(x + BOX / 2 + 5, (y + HIGH + below) / 2 + 2.5, words, "small"))
    side = x + BOX + BACK
    return (f'<path class="round" d="M{x + BOX} {y + HIGH / 2}H{side}V{below + HIGH / 2}H{x + BOX}"/>\n'
            + text(side + 4, (y + below + HIGH) / 2, words, "small"))


def rings_told(places):
    """Each ring in a sentence."""
    for ring in places.rings:
        names = " > ".join(places.station.name(p) for p in (*ring, ring[0]))
        yield f"A ring: {names}. Only a stop or a clean of one of them ends it."


def alone_told(places):
    """The processes that no arrow touches, in a line each, wrapped."""
    words = [f"{places.station.name(p)} {doing(p, places.station)}" for p in places.alone]
    rows = []
    for word in words:
        if rows and width_of(f"{rows[-1]};  {word}", PLAIN) < 380:
            rows[-1] += f";  {word}"
        else:
            rows.append(word)
    return rows


class Waits:
    """The drawing of a run at a line, or at its end: made before the first call behind the line moves anything."""

    def __init__(self, line=None, log=""):
        self.line, self.log, self.place, self.made = line, log, 0, None

    def note(self, place, station):
        """A call in this line is about to be taken."""
        if self.line is not None and place > self.line and self.made is None:
            self.made = drawing(station, self.line, self.log)
        self.place = place

    def end(self, station):
        """The drawing, at the end of the run if it wasn't made before."""
        return self.made or drawing(station, self.line or self.place, self.log)


def drawing(station, place, log=""):
    """The drawing as SVG: who waits for whom behind a line."""
    places = Places(station)
    rest = [*rings_told(places), *alone_told(places), *([NOTE] if places.at else [])]
    width = max(400, 2 * EDGE + places.columns * BOX + (places.columns - 1) * BETWEEN + BACK + 40)
    top = 40 + places.rows * ROW
    height = top + 14 * len(rest) + EDGE
    title = f"{f'{log}: who' if log else 'Who'} waits for whom behind line {place}"
    looks = {p: "ring" if p in places.members else "runs" if p == station.current else "waits" if station.holder(p) else "" for p in places.at}
    pieces = [arrow(p, places) for p in places.at if station.holder(p)] + [box(p, places, looks[p]) for p in places.at]
    pieces += [text(EDGE, top + 8 + 14 * i, words) for i, words in enumerate(rest)]
    note = "" if places.at else text(EDGE, 34, "Nobody waits for an answer.")
    return (f'<?xml version="1.0" encoding="UTF-8"?>\n<svg xmlns="http://www.w3.org/2000/svg" width="{width}pt" height="{height}pt" '
            f'viewBox="0 0 {width} {height}">\n<title>{escape(title)}</title>\n<style>{STYLE}</style>\n<defs>{HEADS}</defs>\n'
            f'<rect width="100%" height="100%" fill="#fff"/>\n{text(EDGE, 18, title, "title")}{note}{"".join(pieces)}</svg>\n')
