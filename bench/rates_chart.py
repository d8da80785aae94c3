"""The chart of docs/RATES.md: wrong pages, and processes stuck for ever, in a thousand pages, by how often the operator cleans."""

import math
import os

from desk.survey.intervals import interval

CHART = os.path.join("docs", "rates.svg")
PANELS = (("wrong", "wrong pages in a thousand"), ("stuck", "processes stuck for ever, in a thousand pages"))
COLOURS = ("#1b6e3a", "#7a7a7a", "#b3261e", "#0b57a4", "#7b3fa0", "#b06a00", "#0a7f86")
MARKS = ("M-5 0h10M0 -5v10", "M-4 -4l8 8M-4 4l8 -8", "M0 -5l5 5l-5 5l-5 -5z", "M-4 -4h8v8h-8z", "M0 -5l5 9h-10z", "M0 5l5 -9h-10z",
         "M-5 0a5 5 0 1 0 10 0a5 5 0 1 0 -10 0z")
WIDTH, HEIGHT, LEFT, TOP, BETWEEN, KEY_LINE = 320, 300, 62, 46, 84, 17
LEAST, MOST, NONE_BELOW = 0.01, 1000, 34      # the scale of both panels; none stands below it
FEWEST, MANY = 0.5, 3000                      # cleans in a thousand pages
SIDE = 4                                      # points between two series at the same place
STYLE = """text { font-family: Helvetica, Arial, sans-serif; font-size: 12px; fill: #111 }
.axis { stroke: #666 } .grid { stroke: #ddd } .title { font-weight: bold } path, .bar { fill: none; stroke-width: 1.6 }"""


def across(cleans):
    return (math.log10(cleans) - math.log10(FEWEST)) / (math.log10(MANY) - math.log10(FEWEST)) * WIDTH


def down(rate):
    """Where a rate stands; none at all stands below the scale."""
    if rate <= 0:
        return HEIGHT + NONE_BELOW
    return HEIGHT - (math.log10(max(rate, LEAST)) - math.log10(LEAST)) / (math.log10(MOST) - math.log10(LEAST)) * HEIGHT


def frame(title):
    """The axes of a panel."""
    yield f'<text class="title" x="0" y="-16">{title}</text>'
    for rate in (0.01, 0.1, 1, 10, 100, 1000):
        yield f'<line class="grid" x1="0" x2="{WIDTH}" y1="{down(rate):.1f}" y2="{down(rate):.1f}"/>'
        yield f'<text x="-8" y="{down(rate) + 4:.1f}" text-anchor="end">{rate:,g}</text>'
    yield f'<line class="grid" x1="0" x2="{WIDTH}" y1="{down(0)}" y2="{down(0)}"/><text x="-8" y="{down(0) + 4}" text-anchor="end">none</text>'
    for cleans in (1, 10, 100, 1000):
        yield f'<line class="grid" x1="{across(cleans):.1f}" x2="{across(cleans):.1f}" y1="0" y2="{down(0)}"/>'
        yield f'<text x="{across(cleans):.1f}" y="{down(0) + 20}" text-anchor="middle">{cleans:,}</text>'
    yield f'<text x="{WIDTH / 2}" y="{down(0) + 40}" text-anchor="middle">cleans in a thousand pages</text>'


def points(counts, what, number):
    """A series: a mark for each rate of cleans, with its exact interval, and a line through those that aren't none."""
    colour, line = COLOURS[number], []
    for at in counts.values():
        pages, shift = at["pages"], SIDE * (number - 3)
        x = across(1000 * at["cleans"] / pages) + shift
        low, high = (1000 * end / pages for end in interval(at[what]))
        y = down(1000 * at[what] / pages)
        if at[what]:
            line.append(f"{x:.1f} {y:.1f}")
            yield f'<line class="bar" stroke="{colour}" x1="{x:.1f}" x2="{x:.1f}" y1="{down(low):.1f}" y2="{down(high):.1f}"/>'
        yield f'<path stroke="{colour}" transform="translate({x:.1f} {y:.1f})" d="{MARKS[number]}"/>'
    if len(line) > 1:
        yield f'<path stroke="{colour}" stroke-opacity=".5" d="M{" L".join(line)}"/>'


def key(names):
    """What each mark stands for."""
    for number, name in enumerate(names):
        y = number * KEY_LINE
        yield f'<path stroke="{COLOURS[number]}" transform="translate(0 {y})" d="{MARKS[number]}"/><text x="14" y="{y + 4}">{name}</text>'


def drawn(found):
    """The chart as SVG; 'found' has the counts by monitor and rate of cleans."""
    width, below = LEFT + len(PANELS) * (WIDTH + BETWEEN), TOP + HEIGHT + NONE_BELOW + 68
    height = below + KEY_LINE * len(found)
    yield f'<svg xmlns="http://www.w3.org/2000/svg" width="{width}" height="{height}" viewBox="0 0 {width} {height}">'
    yield f'<title>Wrong pages and stuck processes by how often the operator cleans</title><style>{STYLE}</style>'
    yield f'<rect width="{width}" height="{height}" fill="#fff"/>'
    for place, (what, title) in enumerate(PANELS):
        yield f'<g transform="translate({LEFT + place * (WIDTH + BETWEEN)} {TOP})">'
        yield from frame(title)
        for number, counts in enumerate(found.values()):
            yield from points(counts, what, number)
        yield "</g>"
    yield f'<g transform="translate({LEFT} {below})">'
    yield from key(found)
    yield "</g></svg>"


def write(found):
    with open(CHART, "w", encoding="utf-8") as file:
        file.write("\n".join(drawn(found)) + "\n")
