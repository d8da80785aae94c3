"""Long runs to draw: of so many calls with so many processes, most of them accepted, the same at each making."""

import random

from tests import stand_in
from tests.explain.test_program import entry, line

NAMES = ("READ", "SPELL", "SCRN", "PRINT", "CLOCK", "TAPE", "PUNCH", "DISK")
WORDS = [0x4142, 0x4300, 0, 0]  # ABC


def entries(count):
    """The processes: priorities from 1 to 6, four buffers each."""
    return [(1 + p * 5 % 6, 4, NAMES[p] if p < len(NAMES) else f"P{p + 1}") for p in range(count)]


def outside(monitor, draw):
    """A call for when nobody runs: a start, a device, a clean or a tick."""
    count = len(monitor.processes) - 1
    stopped = [p for p in range(1, count + 1) if monitor.processes[p]["state"] == 0]
    devices = [process["thing"] for process in monitor.processes[1:] if process["state"] == 4]
    choices = [(6, draw.choice(stopped))] if stopped else []
    choices += [(10, draw.choice(devices))] if devices else []
    return draw.choice(choices + [(9, 0)] + [(8, draw.randint(1, count))] * (not choices))


def own(monitor, draw):
    """A call of the process that runs, or now and then any other."""
    count, me = len(monitor.processes) - 1, monitor.current()
    held = [b for b, buffer in enumerate(monitor.buffers) if b and buffer["receiver"] == me and buffer["standing"] in (2, 4)]
    sent = [b for b, buffer in enumerate(monitor.buffers) if b and buffer["owner"] == me and buffer["standing"] in (1, 2, 3)]
    choices = [(1, draw.randint(1, count)), (3, draw.choice([0, 5])), (3, 0), (5, draw.choice([1, 63])), (9, 0), (6, draw.randint(1, count))]
    choices += [(4, draw.choice(held))] * 4 if held else []
    choices += [(2, draw.choice(sent))] * 2 if sent else []
    rare = [(7, draw.randint(1, count)), (8, draw.randint(1, count)), (11, draw.randint(1, count)), (14, 1), (12, 1), (4, 200)]
    return draw.choice(rare if draw.random() < 0.05 else choices)


def run_of(calls, count):
    """The bytes of the log."""
    draw, laid = random.Random(calls), entries(count)
    log = [entry(*one) for one in laid]
    monitor = stand_in.Monitor([[int(text[i:i + 4], 16) for i in range(2, 22, 4)] for text in log])
    for _ in range(calls):
        number, a = (own if monitor.current() else outside)(monitor, draw)
        words = WORDS if number in (1, 4) else [0, 0, 0, 0]
        log.append(line(number, a, 0, *words))
        try:
            monitor.call(number, a, 0, words)
        except stand_in.Refused:
            pass
    return "".join(log).encode()
