"""A replay written a second time, from the specification alone, as a stand-in where the proved program isn't built.

Reads a log on standard input and writes the answers; with --edition and --semaphores those of another station than the
replay's. The tests hold it to the vectors, and use it for nothing else than to have answers to tell; nothing a user runs
depends on it.
"""

import io
import re
import signal
import sys

USED = {1: (1, 0, 1), 2: (1, 0, 0), 3: (1, 0, 0), 4: (1, 0, 1), 5: (1, 1, 0), 9: (0, 0, 0)}
ZEROS = [0, 0, 0, 0]
OLDEST = 65535


class Refused(Exception):
    """A refusal, with its number."""


def need(number, holds):
    if not holds:
        raise Refused(number)


class Monitor:
    """Processes, buffers and semaphores as plain records in lists; record 0 stands for none. The replay has edition 0 and no
    semaphores."""

    def __init__(self, entries, counters=(), edition=0):
        names = [tuple(entry[2:]) for entry in entries]
        letters = [b"".join(word.to_bytes(2, "big") for word in name) for name in names]
        need(11, 1 <= len(entries) <= 32 and sum(entry[1] for entry in entries) <= 128)
        need(11, all(1 <= entry[0] <= 255 for entry in entries) and len(set(names)) == len(names))
        need(11, all(re.fullmatch(rb"[^\0]{1,5}\0+", name, re.DOTALL) for name in letters))
        self.processes = [None] + [{"priority": entry[0], "state": 0, "thing": 0, "delay": 0, "events": []} for entry in entries]
        self.buffers = [None] + [{"owner": p, "receiver": 0, "standing": 0, "age": 0, "words": ZEROS}
                                 for p, entry in enumerate(entries, 1) for _ in range(entry[1])]
        self.semaphores = [None] + [{"counter": counter, "waiters": []} for counter in counters]
        self.running, self.keeps, self.kept = [], edition == 1, set()

    def current(self):
        return self.running[0] if self.running else 0

    def wake(self, p, by_interrupt=False):
        self.processes[p].update(state=1, thing=0, delay=0)
        self.enter(p, self.processes[p]["priority"] + by_interrupt)

    def enter(self, p, bar):
        ahead = [q for q in self.running if self.processes[q]["priority"] >= bar]
        self.running = ahead + [p] + self.running[len(ahead):]

    def wait(self, state, thing, delay):
        self.processes[self.running.pop(0)].update(state=state, thing=thing, delay=delay)

    def free(self, b):
        self.buffers[b].update(receiver=0, standing=0, age=0, words=ZEROS)

    def unlink(self, b):
        for process in self.processes[1:]:
            if b in process["events"]:
                process["events"].remove(b)

    def give_back(self, b, words):
        buffer = self.buffers[b]
        buffer.update(standing=3, words=words)
        owner = self.processes[buffer["owner"]]
        owner["events"].append(b)
        if owner["state"] == 2 or owner["state"] == 3 and owner["thing"] == b:
            self.wake(buffer["owner"])

    def call(self, number, a, b, words):
        """Kind, buffer, words and rows of an accepted call; raises Refused."""
        need(13, 1 <= number <= 13)
        need(2, 5 < number < 12 or self.running)
        need(3, number not in (5, 10) or a <= 63)
        need(4, number not in (1, 6, 7, 8, 11) or 1 <= a < len(self.processes))
        need(19, number < 12 or 1 <= a < len(self.semaphores))
        return getattr(self, f"call_{number:02X}")(a, b, words)

    def call_01(self, a, _, words):
        me = self.current()
        need(8, a != me)
        mine = [b for b in range(1, len(self.buffers)) if self.buffers[b]["owner"] == me and self.buffers[b]["standing"] == 0]
        need(5, mine)
        self.buffers[mine[0]].update(receiver=a, standing=1, words=words)
        self.processes[a]["events"].append(mine[0])
        if self.processes[a]["state"] == 2:
            self.wake(a)
        return 0, mine[0], ZEROS, []

    def call_02(self, a, _, __):
        me = self.current()
        need(6, 1 <= a < len(self.buffers) and self.buffers[a]["owner"] == me and self.buffers[a]["standing"] in (1, 2, 3))
        if self.buffers[a]["standing"] != 3:
            self.wait(3, a, 0)
            return 0, 0, ZEROS, []
        return self.collect(a)

    def collect(self, b):
        words = self.buffers[b]["words"]
        self.unlink(b)
        self.free(b)
        return 2, b, words, []

    def call_03(self, a, _, __):
        events = self.processes[self.current()]["events"]
        if not events:
            self.wait(2, 0, a)
            return 0, 0, ZEROS, []
        buffer = self.buffers[events[0]]
        if buffer["standing"] == 3:
            return self.collect(events[0])
        buffer["standing"] = 2
        return 1, events.pop(0), buffer["words"], []

    def call_04(self, a, _, words):
        need(6, 1 <= a < len(self.buffers))
        buffer = self.buffers[a]
        need(6, buffer["receiver"] == self.current() and buffer["standing"] in (2, 4))
        if buffer["standing"] == 4:
            self.free(a)
        else:
            self.give_back(a, words)
        return 0, 0, ZEROS, []

    def waiter(self, device):
        return next((p for p, process in enumerate(self.processes) if p and process["state"] == 4 and process["thing"] == device), 0)

    def call_05(self, a, b, _):
        need(9, not self.waiter(a))
        if a in self.kept:
            self.kept.remove(a)
            return 3, 0, ZEROS, []
        self.wait(4, a, b)
        return 0, 0, ZEROS, []

    def call_06(self, a, _, __):
        need(7, self.processes[a]["state"] == 0)
        self.wake(a)
        return 0, 0, ZEROS, []

    def call_07(self, a, _, __):
        need(7, self.processes[a]["state"] != 0)
        if a in self.running:
            self.running.remove(a)
        if self.processes[a]["state"] == 5:
            semaphore = self.semaphores[self.processes[a]["thing"]]
            semaphore["waiters"].remove(a)
            semaphore["counter"] += 1
        self.processes[a].update(state=0, thing=0, delay=0)
        return 0, 0, ZEROS, []

    def call_08(self, a, _, __):
        if self.processes[a]["state"] != 0:
            self.call_07(a, 0, ZEROS)
        changed = 0
        for b, buffer in list(enumerate(self.buffers))[1:]:
            before = buffer["standing"]
            if buffer["owner"] == a and before in (1, 3):
                self.unlink(b)
                self.free(b)
            elif buffer["owner"] == a and before == 2:
                buffer["standing"] = 4
            elif buffer["receiver"] == a and before in (1, 2):
                self.unlink(b)
                self.give_back(b, [0x8000, 0, 0, 0])
            elif buffer["receiver"] == a and before == 4:
                self.free(b)
            changed += before != buffer["standing"]
        return changed, 0, ZEROS, []

    def call_09(self, _, __, ___):
        current = self.running[0] if self.running else 0
        due = [p for p, process in enumerate(self.processes) if p and process["delay"] == 1]
        for process in self.processes[1:]:
            process["delay"] = max(0, process["delay"] - 1)
        for p in due:
            self.wake(p)
        if current:
            self.running.remove(current)
            self.enter(current, self.processes[current]["priority"])
        for buffer in self.buffers[1:]:
            if buffer["standing"]:
                buffer["age"] = min(OLDEST, buffer["age"] + 1)
        return len(due), 0, ZEROS, []

    def call_0A(self, a, _, __):
        waiter = self.waiter(a)
        if waiter:
            self.wake(waiter, by_interrupt=True)
        elif self.keeps:
            self.kept.add(a)
        return waiter, 0, ZEROS, []

    def call_0B(self, a, _, __):
        rows = [(b, *(buffer[part] for part in ("owner", "receiver", "standing", "age"))) for b, buffer in enumerate(self.buffers)
                if b and buffer["standing"] and a in (buffer["owner"], buffer["receiver"])]
        return len(rows), 0, ZEROS, rows

    def call_0C(self, a, _, __):
        semaphore = self.semaphores[a]
        semaphore["counter"] -= 1
        if semaphore["counter"] < 0:
            semaphore["waiters"].append(self.current())
            self.wait(5, a, 0)
        return 0, 0, ZEROS, []

    def call_0D(self, a, _, __):
        semaphore = self.semaphores[a]
        need(20, semaphore["counter"] < 32767)
        semaphore["counter"] += 1
        if semaphore["waiters"]:
            self.wake(semaphore["waiters"].pop(0))
        return 0, 0, ZEROS, []


def digits(words):
    return "".join(f"{word:04X}" for word in words)


def is_call(number, parts):
    if number == 0:
        return parts[5] == 0
    uses_a, uses_b, uses_words = USED.get(number, (1, 0, 0) if number <= 11 else (1, 1, 1))
    return (uses_a or not parts[0]) and (uses_b or not parts[1]) and (uses_words or not any(parts[2:]))


def replay(log, counters=(), edition=0):
    """The lines of output for the bytes of a log; with counters, by a station that has semaphores."""
    return answers(io.BytesIO(log), counters, edition)


def answers(file, counters=(), edition=0):
    """The lines of output for a log that is read line by line, each before the next line is read."""
    entries, monitor = [], None
    try:
        for raw in (line.removesuffix(b"\n") for line in file):
            shaped = re.fullmatch(rb"[0-9A-F]{26}", raw)
            number, parts = (int(raw[:2], 16), [int(raw[i:i + 4], 16) for i in range(2, 26, 4)]) if shaped else (0, [])
            if not shaped or not is_call(number, parts) or number == 0 and monitor:
                yield "FF"
            elif number == 0:
                entries.append(parts[:5])
            else:
                monitor = monitor or Monitor(entries, counters, edition)
                try:
                    kind, buffer, words, rows = monitor.call(number, parts[0], parts[1], parts[2:])
                    yield "00" + digits([kind, buffer, monitor.current(), *words])
                    yield from map(digits, rows)
                except Refused as refusal:
                    yield f"{refusal.args[0]:02X}" + digits([0] * 7)
        monitor = monitor or Monitor(entries)
    except Refused as refusal:
        yield f"{refusal.args[0]:02X}" + digits([0] * 7)


if __name__ == "__main__":
    signal.signal(signal.SIGPIPE, signal.SIG_DFL)  # nobody reads on: quiet, as usual
    given = dict(zip(sys.argv[1::2], sys.argv[2::2]))
    begins = [int(one) for one in given.get("--semaphores", "").split(",") if one]
    for answer in answers(sys.stdin.buffer, begins, int(given.get("--edition", 0))):
        print(answer, flush=True)
