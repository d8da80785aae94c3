"""The options that say what a station has beside its processes, its edition and its semaphores (docs/MONITOR.md, 8 and 9); and
which of them a log shows to be missing."""

import argparse
from functools import partial

from desk.log import lines
from desk.log.layout import MOST_COUNTER, MOST_SEMAPHORES, PLAIN, Outfit
from desk.log.parser import number
from desk.log.station import KEPT_INTERRUPT


def counters(word):
    """The counters that semaphores begin with: 1,0,5."""
    given = word.split(",")
    if len(given) > MOST_SEMAPHORES:
        raise argparse.ArgumentTypeError(f"there are {MOST_SEMAPHORES} semaphores at most")
    return tuple(number(one, 0, MOST_COUNTER, "a counter") for one in given)


def add_outfit(parser):
    """The options that say what a station has."""
    parser.add_argument("--edition", metavar="N", type=partial(number, least=0, most=1, what="an edition"), default=PLAIN.edition,
                        help="the station's edition, the number of header word 4: 0, unless given, or 1, where an interrupt is kept")
    parser.add_argument("--semaphores", metavar="N,N,..", type=counters, default=PLAIN.counters,
                        help="the counters that the station's semaphores begin with; unless given it has none")


def outfit_of(wanted):
    """The outfit that a command line gives."""
    return Outfit(wanted.edition, wanted.semaphores)


def words_of(outfit):
    """An outfit as options of the program that runs a log."""
    semaphores = ["--semaphores", ",".join(map(str, outfit.counters))] if outfit.counters else []
    return ["--edition", str(outfit.edition), *semaphores]


def lacking(call, answer, outfit):
    """Which option a station's answer shows to be missing, as the end of a sentence about its line; None where none is."""
    if answer.number:
        return None
    if call.number in (lines.LOWER, lines.RAISE) and not outfit.counters:
        done = "lowered" if call.number == lines.LOWER else "raised"
        return f"semaphore {call.a} is {done}, so the station has semaphores; --semaphores N,N,.. says with which counters they begin"
    if call.number == lines.WAIT_INTERRUPT and answer.kind == KEPT_INTERRUPT and outfit.edition == 0:
        return f"an interrupt was kept for device {call.a}, so the station is of the second edition; --edition 1 says so"
    return None
