"""A run as signals in a value change dump (IEEE 1364, 18), for GTKWave: of each process its state as a number and in words, whether it
runs, and how many messages and answers stand in its queue; and the clock.

Times are whole numbers, so a tick is as many of them as the calls between two ticks need.
"""

from desk.explain.canvas import SIGNALS_BEGIN
from desk.explain.looks import STATE_LOOKS
from desk.explain.moments import AT_FIRST, STATES

FIRST, LETTERS = 33, 94  # the printable characters of which signals' codes are made
SIGNALS = 4              # of each process
STATE_BITS, QUEUE_BITS = 3, 8
CLOCK = "!"
BLANK = "_"


def code(number):
    """A signal's code; the clock's is the first."""
    text = ""
    number += 1
    while True:
        text += chr(FIRST + number % LETTERS)
        number //= LETTERS
        if not number:
            return text


def plain(name):
    """A name as signals may have it."""
    return "".join(letter if letter.isascii() and letter.isalnum() else BLANK for letter in name)


def unit_of(moments):
    """How many times there are in a tick: a power of ten, for every call one at the least."""
    unit = 10
    while unit <= moments.most():
        unit *= 10
    return unit


def head(moments, unit):
    """What the signals are."""
    yield SIGNALS_BEGIN.decode()
    codes = ", ".join(f"{number} {STATE_LOOKS[look]}" for number, look in enumerate(STATES))
    yield f"$comment A tick is {unit} us. States: {codes}. $end\n$timescale 1 us $end\n$scope module station $end\n"
    yield f"$var wire 1 {CLOCK} tick $end\n"
    for place, name in enumerate(moments.names):
        state, words, runs, queue = (code(SIGNALS * place + part) for part in range(SIGNALS))
        yield (f"$scope module {plain(name)} $end\n$var reg {STATE_BITS} {state} state [{STATE_BITS - 1}:0] $end\n$var string 1 {words} doing $end\n"
               f"$var wire 1 {runs} runs $end\n$var reg {QUEUE_BITS} {queue} queue [{QUEUE_BITS - 1}:0] $end\n$upscope $end\n")
    yield "$upscope $end\n$enddefinitions $end\n"


def values(p, doing, before=None):
    """The signals of a process that are others than before."""
    state, words, runs, queue = (code(SIGNALS * (p - 1) + part) for part in range(SIGNALS))
    told = ((f"b{STATES.index(doing.look):0{STATE_BITS}b} {state}\n", doing.look), (f"s{doing.words.replace(' ', BLANK)} {words}\n", doing.words),
            (f"{int(doing.look == 'current')}{runs}\n", doing.look == "current"), (f"b{doing.queue:0{QUEUE_BITS}b} {queue}\n", doing.queue))
    old = (None,) * SIGNALS if before is None else (before.look, before.words, before.look == "current", before.queue)
    return "".join(text for (text, value), was in zip(told, old) if value != was)


def vcd_of(moments):
    """The whole dump, in pieces."""
    unit, now = unit_of(moments), dict.fromkeys(range(1, len(moments.names) + 1), AT_FIRST)
    yield from head(moments, unit)
    yield "#0\n$dumpvars\n0" + CLOCK + "\n" + "".join(values(p, AT_FIRST) for p in now) + "$end\n"
    last, clock = 0, 0
    for moment in moments.moments:
        told = "".join(values(p, doing, now[p]) for p, doing in moment.changed.items())
        now.update(moment.changed)
        if moment.title == "tick" and not moment.refusal:
            clock = 1 - clock
            told = f"{clock}{CLOCK}\n{told}"
        when = unit * moment.ticks + moment.order
        if told:
            yield (f"#{when}\n" if when != last else "") + told
            last = when
    yield f"#{unit * moments.end()}\n"
