"""A room to try ./compare in: a copy of it and of the program it runs, with the stand-in in the replay's place."""

import os
import shutil

from desk.log import lines
from desk.log.layout import PLAIN
from tests import stand_in
from tests.explain.room import HOME, Room

PROGRAM = os.path.join(HOME, "target", "native", "compare")
MARK = b"> "


class CompareRoom(Room):
    """The commands in a folder with a blank in its name; a with-statement clears it away."""

    def __enter__(self):
        super().__enter__()
        shutil.copytree(os.path.join(HOME, "include"), self.place("include"))
        shutil.copy(os.path.join(HOME, "compare"), self.folder)
        os.makedirs(self.place("source"))
        shutil.copy(os.path.join(HOME, "source", "compare.c"), self.place("source"))
        self.build()
        return self

    def put_program(self):
        """Puts the built program where ./compare looks for it."""
        shutil.copyfile(PROGRAM, self.place("target", "native", "compare"))
        os.chmod(self.place("target", "native", "compare"), 0o755)

    def write(self, name, log):
        """A file of the room; gives its path."""
        with open(self.place(name), "wb") as file:
            file.write(log)
        return self.place(name)

    def compare(self, *logs, options=()):
        """Runs ./compare on some logs, given as bytes."""
        return self.run("compare", *options, *(self.write(f"{place}.log", log) for place, log in enumerate(logs, 1)))

    def hold(self, log, *options):
        """Runs ./compare --to-monitor; gives its exit code and what it says, with single blanks."""
        run = self.compare(log, options=["--to-monitor", *options])
        return run.returncode, " ".join((run.stdout + run.stderr).decode().split())


def woven(log, output=None, outfit=PLAIN):
    """A log of calls with the answers behind them, the stand-in's unless given, as a station without fault keeps it."""
    calls = lines.cut(log)
    output = output or "".join(line + "\n" for line in stand_in.replay(log, outfit.counters, outfit.edition)).encode()
    rows = []
    for line in lines.follow(log, output):
        rows += [calls[line.place - 1]] if line.place else []
        rows += [MARK + raw for raw in line.written]
    return rows


def joined(rows):
    """Lines as a log."""
    return b"".join(row + b"\n" for row in rows)
