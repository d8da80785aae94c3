"""Stations of any outfit to hold to the monitor: calls drawn so that most are accepted, and a plain C monitor with a slip put in."""

import glob
import os
import random
import subprocess

from desk.log.layout import PLAIN
from desk.log.outfit import words_of
from tests import stand_in
from tests.explain import runs
from tests.explain.room import HOME
from tests.explain.test_program import entry, line

PLAIN_MONITOR = ("plain.c", "plain_sound.c", "plain_layout.c", "plain_waits.c")
UNCHECKED = ("if (!plain_sound(table, table_words))", "if (0)")  # a slip soon leaves an unsound table

# The slips: what stands in the plain monitor, and what the slip has in its place.
FREES_HELD = ("            buffer->standing = MONITOR_ORPHANED;\n", "            free_buffer(buffer);\n")
WAKES_ANY = ("(owner->awaited == b ||", "(owner->awaited != 0 ||")
DROPS_ANSWERS = ("    answer(t, b, cleaned);\n", "    free_buffer(buffer);\n")
WAITS_FOR_FREE = ("    if (standing == MONITOR_FREE || standing == MONITOR_ORPHANED) return MONITOR_WRONG_BUFFER;\n", "")
ANSWERED_BY_ANY = ("|| t->buffer[b].receiver != c) return", ") return")
ANSWERED_UNTAKEN = ("else if (t->buffer[b].standing == MONITOR_HELD ||", "else if (t->buffer[b].standing != MONITOR_FREE ||")


def drawn(monitor, draw, outfit):
    """A call that has a chance to be accepted; now and then of a semaphore or a device."""
    if outfit.counters and monitor.current() and draw.random() < 0.2:
        return draw.choice([12, 13]), draw.randint(1, len(outfit.counters) + (draw.random() < 0.05))
    if draw.random() < 0.1:
        return draw.choice([10, 10, 11, 8, 7]), draw.randint(1, len(monitor.processes) - 1)
    return (runs.own if monitor.current() else runs.outside)(monitor, draw)


def calls_of(count, outfit=PLAIN, seed=1, processes=5):
    """The bytes of a log of so many calls."""
    draw = random.Random(seed)
    log = [entry(*one) for one in runs.entries(processes)]
    monitor = stand_in.Monitor([[int(text[i:i + 4], 16) for i in range(2, 22, 4)] for text in log], outfit.counters, outfit.edition)
    for _ in range(count):
        number, a = drawn(monitor, draw, outfit)
        words = [draw.randint(0, 65535) for _ in range(4)] if number in (1, 4) else [0, 0, 0, 0]
        log.append(line(number, a, 0, *words))
        try:
            monitor.call(number, a, 0, words)
        except stand_in.Refused:
            pass
    return "".join(log).encode()


def put_in(folder, slips):
    """Copies the plain monitor into a folder, with slips put in; each stands there once."""
    texts = {}
    for path in glob.glob(os.path.join(HOME, "bench", "plain*.[ch]")):
        if path.endswith(".h") or os.path.basename(path) in PLAIN_MONITOR:
            with open(path, encoding="utf-8") as file:
                texts[os.path.basename(path)] = file.read()
    for there, slip in slips:
        places = [name for name, text in texts.items() if text.count(there) == 1]
        if len(places) != 1:
            raise ValueError(f"the plain monitor hasn't once: {there}")
        texts[places[0]] = texts[places[0]].replace(there, slip)
    for name, text in texts.items():
        with open(os.path.join(folder, name), "w", encoding="utf-8") as file:
            file.write(text)


def build_station(folder, *slips):
    """The plain monitor with slips as a program that runs a log; gives its path."""
    put_in(folder, [*slips, *([UNCHECKED] if slips else [])])
    program = os.path.join(folder, "station")
    sources = [os.path.join(folder, name) for name in PLAIN_MONITOR]
    subprocess.run(["cc", "-std=c11", "-O1", "-w", f"-I{folder}", f"-I{os.path.join(HOME, 'include')}", "-o", program,
                    *(os.path.join(HOME, "desk", "log", name) for name in ("run.c", "serving.c")), *sources], check=True)
    return program


def answers_of(program, log, outfit=PLAIN):
    """The output of a program that runs a log."""
    return subprocess.run([program, *words_of(outfit)], input=log, stdout=subprocess.PIPE, check=True).stdout
