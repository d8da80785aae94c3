"""A log as one page for a web browser: summary, told log and picture side by side. It needs no network and no other file.

Its looks are in page.css and what it does in page.js, both of which are put into the page.
"""

import os
from collections import namedtuple
from xml.sax.saxutils import escape, quoteattr

from desk.explain.canvas import PAGE_BEGINS
from desk.explain.looks import STYLE, definitions
from desk.log import lines
from desk.log.standard import CannotGoOn
from desk.log.words import KEPT, row

HERE = os.path.dirname(os.path.abspath(__file__))
MOST_BYTES = 32_000_000  # with more a browser has no joy in the page
LINE_BYTES = 250         # a line of a log takes more than so many of them, in words and picture
KEYS = "Up and Down, or k and j: the line before or after. Left and Right: the call before or after. /: search. Esc: all lines again."

# A line of the log as told: its place, who was current, the words, what kind of line it is and whose processes it is about.
Told = namedtuple("Told", "place caller words kind who")


class Recording:
    """A telling whose rows are kept for the page; it is told as the telling itself."""

    def __init__(self, telling):
        self.telling, self.kept = telling, []

    def tell(self, line):
        """One line of the log as a row."""
        caller = self.telling.caller()
        said = self.telling.tell(line)
        if said:
            head = len(row(line.place or "end", caller, ["."])) - 1
            self.kept.append(Told(line.place or "end", caller, " ".join(said[head:].split()), kind_of(line), self.who(line)))
        return said

    def __getattr__(self, name):
        """What else is asked of a telling."""
        return getattr(self.telling, name)

    def who(self, line):
        """The processes that a line is about."""
        if line.call is None or line.call.number != lines.LAYOUT and line.answer is None:
            return []
        return [len(self.telling.entries)] if line.call.number == lines.LAYOUT else self.telling.timeline.columns[-1].who


def kind_of(line):
    """What kind of line one is: layout, fault, refused or call."""
    if line.call is None:
        return "fault" if line.fault else "refused"
    if line.call.number == lines.LAYOUT:
        return "layout"
    if line.answer is None:
        return "fault"
    return "refused call" if line.answer.number else "call"


def summary(recording):
    """The run in a few sentences, each part under its heading."""
    for label, sentences in recording.telling.sections():
        yield f"<dt>{label[0].upper()}{label[1:]}</dt>\n"
        yield from (f"<dd>{escape(sentence.replace(KEPT, ' '))}</dd>\n" for sentence in sentences)


def sized(pieces):
    """The pieces of a page as they are, if they are no more bytes than it may have."""
    pieces = list(pieces)
    size = sum(len(piece.encode()) for piece in pieces)
    if size > MOST_BYTES:
        raise CannotGoOn(too_large(size))
    return pieces


def too_large(size):
    """That a page would have so many bytes."""
    return (f"the page would have {size / 1e6:,.0f} million bytes, and {MOST_BYTES // 10 ** 6} million are the most; --lines, --process and "
            "--refused choose fewer lines, and --picture paints a log of any length.")


def inlay(name):
    """A file that is put into the page."""
    with open(os.path.join(HERE, name), encoding="utf-8") as file:
        return file.read()


def line_of(told):
    """A told line as an entry of the list."""
    who = " ".join(map(str, told.who))
    return (f'<li id="line-{told.place}" role="option" aria-selected="false" class="{told.kind}" data-line="{told.place}" data-who="{who}">'
            f'<b>{told.place}</b> <i>{escape(told.caller)}</i> <span>{escape(told.words)}</span></li>\n')


def tools(names):
    """Search and filters."""
    choices = "".join(f'<option value="{p}">{escape(name)}</option>' for p, name in enumerate(names, 1))
    return (f'<form role="search"><label>Search <input id="search" type="search"></label> <label>Process <select id="process">'
            f'<option value="">all</option>{choices}</select></label> <label><input id="refused" type="checkbox"> refused only</label> '
            f'<output id="count"></output> <small>{KEYS}</small></form>\n')


def page(recording, picture):
    """The page, piece by piece."""
    safe = "default-src 'none'; style-src 'unsafe-inline'; script-src 'unsafe-inline'"
    title = escape(picture.title)
    yield PAGE_BEGINS.decode()
    yield (f'<html lang="en"><head><meta charset="utf-8"><meta http-equiv="Content-Security-Policy" content={quoteattr(safe)}>'
           f'<meta name="viewport" content="width=device-width"><title>{title}</title>\n'
           f'<style>\n{STYLE}{inlay("page.css")}</style></head>\n<body>\n'
           f'<header><h1>{title}</h1>\n{tools(recording.telling.timeline.names)}</header>\n<main>\n'
           f'<div id="words">\n<section id="summary" aria-label="Summary">\n')
    yield "<dl>\n"
    yield from summary(recording)
    yield '</dl>\n</section>\n<ol id="log" role="listbox" tabindex="0" aria-label="The log, told line by line">\n'
    yield from map(line_of, recording.kept)
    yield ('</ol>\n</div>\n<div id="picture" tabindex="0" aria-label="The picture">\n'
           f'<svg width="0" height="0" aria-hidden="true">{definitions()}</svg>\n')
    yield from picture.inlaid()
    yield f'</div>\n</main>\n<script>\n{inlay("page.js")}</script>\n</body></html>\n'
