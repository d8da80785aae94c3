"""Draws the instructions of each call by the size of the table, and prints the line through them: the picture's file is named, and the
figures come from bench/curve on standard input, a line each: ours or plain, processes, buffers, instructions, the call's number and name.
"""

import sys
from collections import namedtuple

Count = namedtuple("Count", "monitor processes buffers instructions call")

TRIP = "trip"  # a message's round trip by the quick entry, in a call's place

# What is drawn: calls that cost about the same share a panel. A row of panels goes by processes and one by buffers.
PANELS = (("01 to 07, and 0A", ("01", "02", "03", "04", "05", "06", "07", "0A")), ("08 clean", ("08",)), ("09 tick", ("09",)),
          ("0B list", ("0B",)), ("0C lower, 0D raise", ("0C", "0D")), ("a round trip, quick", (TRIP,)))
Sweep = namedtuple("Sweep", "axis ticks has place")
SWEEPS = (Sweep("processes, with four buffers each", (1, 8, 16, 24, 32), lambda size: size.buffers == 4 * size.processes,
                lambda size: size.processes),
          Sweep("buffers, with 32 processes", (0, 32, 64, 96, 128), lambda size: size.processes == 32, lambda size: size.buffers))
LARGEST = "The figures are those of 32 processes and 128 buffers."
MONITORS = (("plain", "tuned C"), ("ours", "ours"))

# Measures, in points.
PANEL_WIDTH, PANEL_HEIGHT, LEFT, TOP, BETWEEN, BELOW = 148, 190, 62, 92, 28, 84
WIDTH = LEFT + len(PANELS) * (PANEL_WIDTH + BETWEEN)
HEIGHT = TOP + len(SWEEPS) * (PANEL_HEIGHT + BELOW) - 28
STYLE = """text { font-family: Helvetica, Arial, sans-serif; font-size: 12px; fill: #111 }
path { fill: none; stroke-width: 1.4 }
.axis { stroke: #666; stroke-width: 1 }
.grid { stroke: #ddd; stroke-width: 1 }
.ours { stroke: #1b6e3a }
.plain { stroke: #a33; stroke-dasharray: 6 3 }
.floor { stroke: #333; stroke-dasharray: 2 3 }
.title { font-weight: bold }
.of-ours, .of-plain { stroke: #fff; stroke-width: 3; paint-order: stroke }
.of-ours { fill: #1b6e3a }
.of-plain { fill: #a33 }"""


def words_of(size):
    """The words of a table without semaphores."""
    return 72 + 16 * size.processes + 10 * size.buffers


def read_counts(lines):
    counts = []
    for line in lines:
        monitor, processes, buffers, instructions, call = line.split()[:5]
        counts.append(Count(monitor, int(processes), int(buffers), int(instructions), call))
    return counts


def text(x, y, words, kind="", anchor="start"):
    return f'<text x="{x:g}" y="{y:g}" class="{kind}" text-anchor="{anchor}">{words}</text>'


def path(places, kind):
    return f'<path d="M{" L".join(f"{x:.1f} {y:.1f}" for x, y in places)}" class="{kind}"/>'


def tick_step(most):
    """The round number that parts the height into at most seven."""
    return next(step for power in (100, 1000, 10000) for step in (power, 2 * power, 5 * power) if most <= 7 * step)


class Panel:
    """One panel: where it stands, and its scales."""

    def __init__(self, column, row, sweep, most):
        self.left, self.top = LEFT + column * (PANEL_WIDTH + BETWEEN), TOP + row * (PANEL_HEIGHT + BELOW)
        self.sweep, self.most = sweep, most

    def across(self, value):
        return self.left + PANEL_WIDTH * value / self.sweep.ticks[-1]

    def up(self, value):
        return self.top + PANEL_HEIGHT * (1 - value / self.most)

    def frame(self, title, is_first):
        """The axes with their numbers; those of the height, and what the row goes by, come with its first panel only."""
        pieces = [text(self.left, self.top - 8, title, "title")]
        bottom = self.top + PANEL_HEIGHT
        for value in range(0, self.most + 1, tick_step(self.most)):
            height = self.up(value)
            pieces.append(f'<path d="M{self.left} {height:.1f} h{PANEL_WIDTH}" class="{"grid" if value else "axis"}"/>')
            if is_first:
                pieces.append(text(self.left - 8, height + 4, f"{value:,}", anchor="end"))
        for value in self.sweep.ticks:
            pieces.append(f'<path d="M{self.across(value):.1f} {bottom} v5" class="axis"/>')
            pieces.append(text(self.across(value), bottom + 19, value, anchor="middle"))
        return pieces if not is_first else [*pieces, text(WIDTH / 2, bottom + 42, self.sweep.axis, anchor="middle")]

    def lines(self, counts, calls):
        """A line a call and monitor, and what they come to at the right end."""
        pieces, note = [], self.top + 32
        for monitor, name in MONITORS:
            ends = []
            for call in calls:
                line = sorted((self.sweep.place(one), one.instructions) for one in counts if (one.monitor, one.call) == (monitor, call))
                pieces.append(path([(self.across(x), self.up(y)) for x, y in line], monitor))
                ends.append(line[-1][1])
            told = f"{min(ends):,}" if len(calls) == 1 else f"{min(ends):,} to {max(ends):,}"
            pieces.append(text(self.left + 8, note, f"{name} {told}", "of-" + monitor))
            note -= 16
        return pieces

    def floor(self, counts):
        sizes = sorted({(self.sweep.place(one), words_of(one)) for one in counts})
        return path([(self.across(x), self.up(y)) for x, y in sizes], "floor")


def legend():
    pieces, x = [text(20, 24, "Instructions of a call", "title"), text(20, 46, LARGEST)], LEFT + 160
    for kind, words in (("ours", "ours"), ("plain", "tuned C"), ("floor", "each word of the table read once, by one instruction")):
        pieces += [f'<path d="M{x} 20 h36" class="{kind}"/>', text(x + 44, 24, words)]
        x += 66 + 7 * len(words)
    return pieces


def picture(counts):
    step = tick_step(max(one.instructions for one in counts))
    most = -(-max(one.instructions for one in counts) // step) * step
    pieces = [f'<svg xmlns="http://www.w3.org/2000/svg" width="{WIDTH}" height="{HEIGHT}" viewBox="0 0 {WIDTH} {HEIGHT}" role="img" '
              'aria-label="Instructions of each call by processes and by buffers">',
              f"<style>\n{STYLE}\n</style>", f'<rect width="{WIDTH}" height="{HEIGHT}" fill="#fff"/>', *legend()]
    for row, sweep in enumerate(SWEEPS):
        shown = [one for one in counts if sweep.has(one)]
        for column, (title, calls) in enumerate(PANELS):
            panel = Panel(column, row, sweep, most)
            pieces += [*panel.frame(title, column == 0), panel.floor(shown), *panel.lines(shown, calls)]
    return "\n".join([*pieces, "</svg>\n"])


def solved(rows):
    """The numbers that three equations determine: each has three factors and what they come to."""
    for at, _ in enumerate(rows):
        head = rows[at] = [value / rows[at][at] for value in rows[at]]
        for other, row in enumerate(rows):
            if other != at:
                rows[other] = [value - row[at] * of_head for value, of_head in zip(row, head)]
    return [row[-1] for row in rows]


def line_through(counts):
    """The line by least squares, as instructions of a call, a process and a buffer; and how far from it a count is at the most."""
    rows = [(1, one.processes, one.buffers, one.instructions) for one in counts]
    factors = solved([[sum(row[i] * row[j] for row in rows) for j in range(4)] for i in range(3)])
    return factors, max(abs(sum(f * x for f, x in zip(factors, row)) - row[-1]) for row in rows)


def print_lines(counts):
    print(f"{'instructions':<14}{'a call':>10}{'a process':>10}{'a buffer':>10}{'off at most':>13}")
    for call in sorted({one.call for one in counts}):
        for monitor, name in reversed(MONITORS):
            factors, off = line_through([one for one in counts if (one.monitor, one.call) == (monitor, call)])
            print(f"{call} {name:<11}" + "".join(f"{factor:10.1f}" for factor in factors) + f"{off:13.0f}")


def main():
    counts = read_counts(sys.stdin)
    with open(sys.argv[1], "w", encoding="utf-8") as file:
        file.write(picture(counts))
    print_lines(counts)


if __name__ == "__main__":
    main()
