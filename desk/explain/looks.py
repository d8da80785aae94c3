"""How things look in a picture: letters, bars and their hatching. Measures are points; no letter is smaller than 7.

A picture has no scripts, and reads in black and white.
"""

from xml.sax.saxutils import escape

STATE_LOOKS = {
    "current": "runs (current)", "ready": "ready to run", "event": "waits for an event", "answer": "waits for an answer",
    "interrupt": "waits for a device", "semaphore": "waits for a semaphore", "stopped": "stopped",
}
BUFFER_LOOKS = {
    "queued": "queued at the receiver", "held": "held by the receiver", "answered": "answered, back at the owner",
    "orphaned": "orphaned, still held",
}

LARGE, PLAIN, SMALL = 12, 8, 7  # sizes of letters
STYLE = f"""
svg text {{ font: {PLAIN}px Helvetica, Arial, "Liberation Sans", sans-serif; fill: #111 }}
svg .title {{ font-size: {LARGE}px; font-weight: bold }} svg .name {{ font-weight: bold }} svg .small {{ font-size: {SMALL}px }}
svg .refused {{ fill: #a00; font-style: italic }} svg .light {{ fill: #fff }}
svg .grid {{ stroke: #ddd; stroke-width: .5 }} svg .gap {{ stroke: #666; stroke-dasharray: 3 2 }} svg .bar {{ stroke: #333; stroke-width: .6 }}
svg .way {{ stroke: #000; stroke-width: 1; fill: none; marker-end: url(#head) }} svg .halo {{ stroke: #fff; stroke-width: 2.6 }}
svg .event, svg .answer, svg .interrupt, svg .semaphore, svg .answered, svg .orphaned {{ stroke: #333; pointer-events: none }}
svg .event, svg .semaphore {{ stroke-width: 9; stroke-dasharray: .6 3.4 }} svg .interrupt {{ stroke-width: 9; stroke-dasharray: .7 1.8 }}
svg .orphaned {{ stroke-width: 7; stroke-dasharray: .5 2.5 }} svg .answer {{ stroke-dasharray: 1.4 3 }} svg .answered {{ stroke-width: .6 }}
svg .round {{ stroke: #a00; stroke-width: 1.4; fill: none }}
svg .stopped {{ stroke: #999; stroke-dasharray: 2 3 }}
"""

# The ground colours, and of those that are hatched by strokes across, how the strokes lean; the others have two lines along.
GROUNDS = {"current": "#14532d", "ready": "#b7e4c0", "event": "#cfe3f5", "answer": "#fde0b5", "interrupt": "#e4d3ec", "semaphore": "#e8e0c8",
           "queued": "#fff", "held": "#4a4a4a", "answered": "#fff3b0", "orphaned": "#f6c6c6"}
LEANING = {"event": (-45,), "interrupt": (0,), "semaphore": (45,), "orphaned": (-45, 45)}
ALONG = ("answer", "answered")
DARK = ("current", "held")
MIDDLE = ' text-anchor="middle"'
BROAD, NARROW = "mwMW@%", " .,:;'|!ijlft()"


def width_of(words, size):
    """How wide some words are at the most, in the common upright types."""
    return size * sum(0.9 if letter in BROAD else 0.33 if letter in NARROW else 0.7 if letter.isupper() else 0.58 for letter in words)


def definitions():
    """The head of an arrow."""
    return ('<defs><marker id="head" markerUnits="userSpaceOnUse" markerWidth="6" markerHeight="6" refX="5" refY="3" '
            'orient="auto"><path d="M0 .5 L6 3 L0 5.5 z" fill="#000"/></marker></defs>\n')


def text(x, y, words, kind="", more=""):
    """A piece of text."""
    styled = f' class="{kind}"' if kind else ""
    return f'<text x="{x:.6g}" y="{y:.6g}"{styled}{more}>{escape(words)}</text>\n'


def hatch(x, y, width, height, look):
    """The strokes over a bar's ground: a thick dashed line down its middle, leaning, or two thin ones along it.

    They are lines and no SVG patterns, which browsers print as large images.
    """
    if look in ALONG:
        upper, lower = y + height * .3, y + height * .7
        return f'<path class="{look}" d="M{x + 1:.6g} {upper:.6g}h{width - 2:.6g}M{x + 3:.6g} {lower:.6g}h{width - 4:.6g}"/>\n'
    pieces = []
    for lean in LEANING.get(look, ()):
        inset = height / 2 if lean else 1
        pieces.append(f'<path class="{look}" transform="translate({x:.6g} {y + height / 2:.6g}) skewX({lean})" '
                      f'd="M{inset:.6g} 0h{width - 2 * inset:.6g}"/>\n')
    return "".join(pieces)


def box(x, y, width, height, look, title=""):
    """A bar with its look; a stopped process is a thin dashed line."""
    if look == "stopped":
        return f'<path class="stopped" d="M{x:.6g} {y + height / 2:.6g}h{width:.6g}"/>\n'
    inner = f"<title>{escape(title)}</title>" if title else ""
    return (f'<rect class="bar" x="{x:.6g}" y="{y:.6g}" width="{width:.6g}" height="{height:.6g}" rx="2" '
            f'fill="{GROUNDS[look]}">{inner}</rect>\n{hatch(x, y, width, height, look)}')


def fitting(labels, width):
    """The first of some labels that fits, with its size, or None."""
    return next(((words, size) for words in labels for size in (PLAIN, SMALL) if width_of(words, size) <= width - 2), None)


def gaps(x, width, arrows):
    """The pieces of a bar between the arrows that cross it, a left side and a width each, the widest first."""
    sides = [x, *sorted(place for place in arrows if x < place < x + width), x + width]
    pieces = [(left + (2 if i else 0), right - left - (2 if i else 0) - (2 if right < x + width else 0))
              for i, (left, right) in enumerate(zip(sides, sides[1:]))]
    return sorted(pieces, key=lambda piece: -piece[1])


def place_for(x, width, labels, arrows):
    """The longest label that fits between the arrows that cross a bar, with its size and where; over them, where none does; or None."""
    for words in labels:
        for left, room in gaps(x, width, arrows):
            found = fitting([words], room)
            if found:
                return (*found, left, room)
    found = fitting(labels, width)
    return (*found, x, width) if found else None


def label(x, y, width, labels, look, arrows=()):
    """The longest label that fits a bar beside the arrows that cross it, on a white ground over hatching; none where none does."""
    found = place_for(x, width, labels, arrows)
    if found is None:
        return ""
    words, size, x, width = found
    middle, half = x + width / 2, min(width_of(words, size) / 2 + 1, width / 2 - .5)
    ground = ""
    if look in LEANING or look in ALONG:
        ground = f'<rect x="{middle - half:.6g}" y="{y - 4:.6g}" width="{2 * half:.6g}" height="8" rx="2" fill="#fff"/>\n'
    kinds = " ".join(kind for kind, wanted in (("light", look in DARK), ("small", size == SMALL)) if wanted)
    return ground + text(middle, y + size * .36, words, kinds, MIDDLE)


def mark(x, y, filled):
    """The mark over the bar of who is current when a call comes; filled where that one makes it."""
    return f'<path d="M{x - 3:.6g} {y:.6g}h6l-3 3.6z" stroke="#000" stroke-width=".7" fill="{"#000" if filled else "#fff"}"/>\n'


def way(x, start, end, giver, taker):
    """An arrow from one process's row to another's, on a white ground."""
    line = f"M{x:.6g} {start:.6g}V{end:.6g}"
    return (f'<g data-process="{giver} {taker}"><path class="halo" d="{line}"/><path class="way" d="{line}"/>'
            f'<circle cx="{x:.6g}" cy="{start:.6g}" r="1.5"/></g>\n')
