"""The words of ./survey's command line, and which of them don't go together."""

from functools import partial

from desk.log.outfit import counters
from desk.log.parser import Parser, number
from desk.log.standard import CannotGoOn
from desk.survey.rates import CONVERSATIONS, UNITS
from desk.survey.settings import month, shop

SHOPS, MONTHS, KINDS = "shops", "months", "kinds"

ABOUT = """Judges many logs that carry a station's answers, and says what went wrong how
often and how sure that is. Each log is held to the proved monitor up to the
line at which it strays, and the stray is named: a buffer lost, a wait for an
answer already withdrawn, a stranger woken, or another answer. Of a folder all
files are judged, in it and below; one that can't be is told with the reason
and counted apart."""
EXITS = """A rate is faults by conversations begun and by ticks, as far as the logs are
watched. Its bounds are the exact interval of a Poisson number, 95 in 100; of
what was never seen the upper one is told.

The file survey.txt in a log's folder, or above it in a folder that is named,
sets what the log doesn't say, a line each: 'edition 1', 'semaphores 1,0',
'shop Miller, Leeds', 'month 2026-03'. Behind a log's name and a colon a line is
for that log alone: 'may.log: edition 0'. The options hold before it. Where
nothing is set a station is of the first edition and has no semaphores, the
shop is called as the log's folder, and the month is that in the log's name or
its folder's.

exit codes: 0 every log was judged and none strayed, 1 a log strayed or was not
judged, 2 it could not be done (a sentence says why)
./survey --version says which version this is."""


def words_of_command(arguments):
    """The command line, read."""
    parser = Parser("./survey", ABOUT, EXITS, usage="./survey [OPTIONS] LOG.. | FOLDER..")
    parser.add_argument("logs", nargs="*", metavar="LOG", help="logs that carry a station's answers, and folders of such")
    ways = parser.add_mutually_exclusive_group()
    ways.add_argument("--note", action="store_true", help="a paragraph for print instead of the table")
    ways.add_argument("--csv", action="store_true", help="a row of CSV for each log instead; with --rates for each rate")
    ways.add_argument("--json", action="store_true", help="one object of JSON instead, with logs and rates")
    parser.add_argument("--rates", action="store_true", help="only the rates, without the table of the logs")
    parser.add_argument("--picture", metavar="OUT.svg", help="also draw the rates with their intervals")
    parser.add_argument("--rows", choices=(SHOPS, MONTHS, KINDS), help="what the picture's rows are; shops unless given, kinds where there is one shop")
    parser.add_argument("--by", choices=UNITS, help=f"what the picture's rates are counted by; {CONVERSATIONS} unless given")
    parser.add_argument("--edition", metavar="N", type=partial(number, least=0, most=1, what="an edition"),
                        help="the stations' edition, the number of header word 4: 0 or 1, where an interrupt is kept")
    parser.add_argument("--semaphores", metavar="N,N,..", type=counters, help="the counters that the stations' semaphores begin with")
    parser.add_argument("--shop", metavar="NAME", type=shop, help="the shop that the logs are of")
    parser.add_argument("--month", metavar="YYYY-MM", type=month, help="the month that the logs are of")
    parser.add_argument("--progress", action="store_true", help="say how far it is and how long it will take, also where nobody seems to look")
    wanted = parser.parse_args(arguments)
    if not wanted.logs:
        parser.error("no log or folder was named")
    refuse_words(wanted)
    return wanted


def refuse_words(wanted):
    """Refuses options that don't go together."""
    trouble = None
    if wanted.rates and (wanted.json or wanted.note):
        trouble = f"--rates doesn't go with {'--json' if wanted.json else '--note'}, which has them"
    elif wanted.picture is None and (wanted.rows or wanted.by):
        trouble = f"{'--rows' if wanted.rows else '--by'} goes with --picture"
    if trouble:
        raise CannotGoOn(f"{trouble}; ./survey --help says how it is used.")


def options_of(wanted):
    """What the options set for every log."""
    return {"edition": wanted.edition, "semaphores": wanted.semaphores, "shop": wanted.shop, "month": wanted.month}
