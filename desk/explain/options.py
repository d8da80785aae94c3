"""The words of ./explain's command line, what they choose, and which of them don't go together."""

import argparse
import re
from functools import partial

from desk.explain.exports import add_exports, trouble_with
from desk.explain.filters import Filter, Silence
from desk.explain.strips import COLUMNS
from desk.log.layout import MOST_BUFFERS
from desk.log.outfit import add_outfit
from desk.log.parser import Parser, number
from desk.log.standard import CannotGoOn

SPEED = 4         # lines of the log that a screen shows in a second
MOST_SHEETS = 50  # so many sheets of a picture are painted unasked

ABOUT = """Tells a log of calls and the replay's answers in a person's words, and behind
the last line a summary: what was refused and why, who waits for what, what is
open, who has no free buffer, and who is stuck behind whom."""
EXITS = """With --refused, --process, --buffer and --lines only the lines are told that fit
all of them; the station is followed from the start all the same, and the
summary is that of the whole log. --process and --buffer may be given several
times, for any of several. A process plays a part in a line where it calls, is
named, wakes, runs from then on, or has sent or received a buffer concerned.

Lines marked with '> ' are a station's own answers, each behind its call. They
are passed over, and the monitor's run is told; with --answers they are told,
and whether a buffer was lost. A log of a station of the second edition wants
--edition 1, one of a station with semaphores --semaphores; the replay itself
has neither.

Rows are as wide as the terminal, or 80 columns where there is none. A picture
is drawn in strips of so many calls, on sheets of A4; of a long run each sheet
is a file, OUT-01.svg, OUT-02.svg and so on. A page is one file for a web
browser that has all in it, 32 million bytes at most. Picture and page have the
lines that are chosen. A picture takes the place of no file but an older SVG
picture, a page of none but an older page; - is standard output, and nothing
else is told there. A screen is drawn in the terminal, where the space key
pauses it, n steps, b goes back and q ends; or printed plainly where standard
output is no terminal. A trace and signals are of the whole log, whatever lines
are told; in both the time is that of the ticks, and the calls between two ticks
share it.

A dump is text, words of four hexadecimal digits, as many to a line as there
are; each line may have the place of its first word in front, as ./console's
'table', od, hexdump and xxd write it, and a remark behind '#'. An empty line
parts two dumps. docs/DAMAGE.md says what is usually behind a table that isn't
sound, and who wrote there.

exit codes: 0 the log was told, and painted where that was asked for, or every
table is sound; 1 the monitor's answers broke off, or a table isn't sound; 2 it
could not be done (a sentence says why)
./explain --version says which version this is."""


def places(word):
    """The first and the last line of a range, the last None where it has no end: 20-40, 20- or 20 alone."""
    range_of = re.fullmatch(r"([0-9]{1,18})(-([0-9]{1,18})?)?", word)
    if range_of is None:
        raise argparse.ArgumentTypeError("lines are given as 20-40, as 20- for all from there on, or as 20 alone")
    first = int(range_of[1])
    last = first if range_of[2] is None else int(range_of[3]) if range_of[3] else None
    if first < 1 or last is not None and last < first:
        raise argparse.ArgumentTypeError("lines count from 1, and the first comes before the last")
    return first, last


def words_of_command(arguments):
    """The command line, read."""
    parser = Parser("./explain", ABOUT, EXITS, usage="./explain [OPTIONS] [FILE]")
    parser.add_argument("file", nargs="?", metavar="FILE", help="the log, or with --table the dump; standard input where it is - or no file is named")
    add_filters(parser)
    ways = parser.add_mutually_exclusive_group()
    ways.add_argument("--picture", metavar="OUT.svg", help="also paint a timeline, for any web browser")
    ways.add_argument("--page", metavar="OUT.html", help="also write a page with summary, told log and picture, for any web browser")
    ways.add_argument("--waits", metavar="OUT.svg", help="also draw who waits for whom, at the end or at --line")
    ways.add_argument("--screen", action="store_true", help="show the operator's screen, a row for each process, instead")
    parser.add_argument("--columns", metavar="N", type=partial(number, least=5, most=200, what="a strip's number of columns"),
                        help=f"calls in a strip of the picture, from 5 to 200; {COLUMNS} unless given, which fits A4")
    parser.add_argument("--all-sheets", action="store_true", help=f"paint a picture of more than {MOST_SHEETS} sheets too")
    parser.add_argument("--line", metavar="N", type=partial(number, least=1, most=10 ** 18, what="a line"),
                        help="the line of the log behind which --waits draws")
    parser.add_argument("--speed", metavar="N", type=partial(number, least=1, most=1000, what="a speed"),
                        help=f"lines of the log that the screen shows in a second; {SPEED} unless given")
    parser.add_argument("--walks", action="store_true",
                        help="also tell how many records each passed that entered the running queue")
    parser.add_argument("--answers", action="store_true", help="tell the station's own answers, which stand in the log; nothing is run")
    add_exports(parser)
    add_outfit(parser)
    add_table(parser)
    parser.add_argument("--progress", action="store_true",
                        help="say how far it is and how long it will take, also where nobody seems to look")
    wanted = parser.parse_args(arguments)
    wanted.file = None if wanted.file == "-" else wanted.file
    return wanted


def add_table(parser):
    """The options for a dump of a table's words."""
    parser.add_argument("--table", action="store_true",
                        help="tell a dump of a table's words instead of a log: the station, or why it isn't sound")
    orders = parser.add_mutually_exclusive_group()
    orders.add_argument("--little", action="store_true", help="the dump is bytes, the low byte of a word first")
    orders.add_argument("--big", action="store_true", help="the dump is bytes, the high byte of a word first")


def add_filters(parser):
    """The options that choose what is told."""
    parser.add_argument("--summary", action="store_true", help="only the summary")
    parser.add_argument("--refused", action="store_true", help="only the calls that were refused")
    parser.add_argument("--process", metavar="NAME", action="append", default=[],
                        help="only the lines that a process plays a part in")
    parser.add_argument("--buffer", metavar="N", action="append", default=[],
                        type=partial(number, least=1, most=MOST_BUFFERS, what="a buffer"),
                        help="only the lines that a buffer plays a part in")
    parser.add_argument("--lines", metavar="A-B", type=places, help="only the lines from A to B of the log")


def filter_of(wanted):
    """The filter that the command line asks for, or None."""
    if wanted.summary:
        return Silence()
    if wanted.refused or wanted.process or wanted.buffer or wanted.lines:
        return Filter(wanted.refused, wanted.process, wanted.buffer, wanted.lines)
    return None


def chosen_by(wanted):
    """The options that choose lines."""
    return [option for option, given in (("--summary", wanted.summary), ("--refused", wanted.refused), ("--process", wanted.process),
                                         ("--buffer", wanted.buffer), ("--lines", wanted.lines)) if given]


def beside_table(wanted):
    """The options that ask for something of a run."""
    given = (("--picture", wanted.picture is not None), ("--page", wanted.page is not None), ("--waits", wanted.waits is not None),
             ("--screen", wanted.screen), ("--walks", wanted.walks), ("--answers", wanted.answers), ("--edition", wanted.edition),
             ("--semaphores", wanted.semaphores), ("--columns", wanted.columns), ("--line", wanted.line), ("--speed", wanted.speed),
             ("--all-sheets", wanted.all_sheets), ("--json", wanted.json), ("--statistics", wanted.statistics),
             ("--trace", wanted.trace is not None), ("--vcd", wanted.vcd is not None))
    return [*chosen_by(wanted), *(option for option, is_given in given if is_given)]


def refuse_words(wanted):
    """Refuses options that don't go together."""
    chosen, beside = chosen_by(wanted), beside_table(wanted)
    exported, trouble = trouble_with(wanted, chosen), None
    if wanted.table and beside:
        trouble = f"{beside[0]} doesn't go with --table: a table is one moment, and has no run"
    elif exported:
        trouble = exported
    elif (wanted.little or wanted.big) and not wanted.table:
        trouble = f"{'--little' if wanted.little else '--big'} goes with --table"
    elif wanted.speed and not wanted.screen:
        trouble = "--speed goes with --screen"
    elif wanted.line and wanted.waits is None:
        trouble = "--line goes with --waits"
    elif wanted.columns and wanted.picture is None and wanted.page is None:
        trouble = "--columns goes with --picture or --page"
    elif wanted.page is not None and wanted.summary:
        trouble = "--summary doesn't go with --page, which has the told log too"
    elif wanted.all_sheets and wanted.picture is None:
        trouble = "--all-sheets goes with --picture"
    elif wanted.screen and chosen:
        trouble = f"{chosen[0]} doesn't go with --screen, which shows every line"
    elif wanted.summary and len(chosen) > 1:
        trouble = f"{chosen[1]} doesn't go with --summary, which is of the whole log"
    if trouble:
        raise CannotGoOn(f"{trouble}; ./explain --help says how it is used.")
