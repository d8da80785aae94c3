"""How far a survey is, and how long it will still take, on standard error. Programs on several cores report to it."""

import threading
import time

from desk.log import standard

STEP = 0.25  # seconds between two words of progress


class Progress:
    """The bytes and logs that are done, of those that there are; silent where nobody wants to know."""

    def __init__(self, logs, wanted):
        self.logs, self.wanted = logs, wanted
        self.bytes = sum(log.size for log in logs)
        self.began, self.told_at, self.is_told = time.monotonic(), 0.0, False
        self.done_bytes, self.done_logs, self.begun, self.lock = 0, 0, {}, threading.Lock()

    def at(self, log, place):
        """A log is read so far."""
        with self.lock:
            self.begun[log.path] = place
            self.tell()

    def done(self, log):
        """A log is judged."""
        with self.lock:
            self.begun.pop(log.path, None)
            self.done_bytes += log.size
            self.done_logs += 1
            self.tell()

    def tell(self):
        """A word, where one is wanted and the last is some time ago."""
        now = time.monotonic()
        if not self.wanted or now - self.told_at < STEP and self.done_logs < len(self.logs):
            return
        self.told_at, self.is_told = now, True
        done = self.done_bytes + sum(self.begun.values())
        left = (now - self.began) / done * max(0, self.bytes - done) if done else 0
        standard.whisper(f"\rsurvey: {self.done_logs:,} of {len(self.logs):,} logs, about {left:.0f} s left{'':<12}")

    def end(self):
        """Ends the line that was written again and again, if one was."""
        if self.is_told:
            standard.whisper("\n")
