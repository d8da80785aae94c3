"""A run in words: the lines it has come to, each served by the monitor and told, with undo and again.

A run is a list of steps, one for each statement that changed something. What was taken back is done anew from the beginning
without its last step: the monitor's table and the telling depend on the lines alone.
"""

from collections import namedtuple

from desk.console.calling import GIVES_LINES, SETTINGS, lines_of
from desk.console.mistakes import Mistake
from desk.console.naming import Names
from desk.console.reading import ANSWERED
from desk.console.saying import log_said, settings_said
from desk.explain.telling import Telling
from desk.log import lines
from desk.log.layout import MOST_COUNTER, MOST_SEMAPHORES, Outfit
from desk.log.lines import MARK
from desk.log.words import WIDTH, row
from desk.served.monitor import NO_CALL, REFUSED_LAYOUT

TORN = "torn"
LOAD = "load"

# What a statement did: its name; the lines of the log that it gave; the value of a setting; and of a load the steps of the
# run that it took the place of.
Step = namedtuple("Step", "name raws value earlier", defaults=((), None, ()))


class Session:
    """One run. The monitor may be None where nothing is to be answered or told."""

    def __init__(self, monitor, width=WIDTH):
        self.monitor, self.width = monitor, width
        self.steps, self.undone = [], []
        self.begin()

    def begin(self):
        """The run before its first statement."""
        self.names, self.telling = Names(), None
        self.edition, self.counters = 0, []
        self.raws, self.written = [], []  # the log's lines, and for each the lines of output that it was answered with
        self.over = self.torn = False     # whether the layout was refused, and whether the last line has no end

    # ---- statements

    def do(self, statement):
        """Does a statement that belongs to the run; gives the rows that tell it. Raises a Mistake, and has then done nothing."""
        step = self.step_of(statement)
        rows = self.take(step)
        self.steps.append(step)
        self.undone.clear()
        return rows

    def step_of(self, statement):
        """The step that a statement comes to now."""
        name = statement.name
        if name in GIVES_LINES:
            if self.torn:
                raise Mistake(1, "nothing comes behind 'torn', which says how the log ends.")
            self.check_caller(statement.caller)
            return Step(name, tuple(lines_of(statement, self.names)))
        if name in SETTINGS and self.names.laid:
            raise Mistake(1, f"the station is laid out already; '{name}' comes before the first call.")
        return Step(name, (), statement.values[0] if statement.values else None)

    def check_caller(self, caller):
        """Refuses a call that is said to be made by another than who runs."""
        if caller is None:
            return
        number, station = self.names.number_of(caller), self.station()
        if not 1 <= number <= len(station.processes):
            raise Mistake(caller.column, f"there is no process {number} that could call.")
        if number != station.current:
            raise Mistake(caller.column, f"{station.name(number)} doesn't run, so it can't call: {station.running()} runs.")

    def take(self, step):
        """Does a step; gives the rows that tell it."""
        if step.name == "edition":
            self.edition = step.value
            return [self.row("", f"Edition {step.value}.")]
        if step.name == "semaphore":
            self.counters.append(step.value)
            return [self.row("", f"Semaphore {len(self.counters)}: it begins with {step.value}.")]
        if step.name == TORN:
            self.torn = True
            return []
        return [told for raw in step.raws for told in self.serve(raw)]

    def row(self, place, sentence):
        """A sentence of the console's own under the columns of the telling."""
        return row(place, "", [sentence], self.width)

    # ---- lines

    def serve(self, raw):
        """One more line of the log; gives the rows that tell it, none where nobody answers."""
        self.raws.append(raw)
        self.written.append(())
        if self.over or raw.startswith(MARK):
            return []
        was_laid, place = self.names.laid, len(self.raws)
        line = self.names.take(raw, place)
        if self.monitor is None:
            return []
        if line.call and not was_laid and line.call.number != lines.LAYOUT and not self.lay_out():
            self.over = True
            self.written[-1] = (REFUSED_LAYOUT,)
            told = self.teller().tell(lines.Line(place, None, None, lines.answer_of(REFUSED_LAYOUT), (), self.written[-1]))
            return [told, *(self.row("", fault) for fault in setting_faults(self.edition, self.counters))]
        if line.fault or line.call.number != lines.LAYOUT:
            line = lines.answered(line, iter(NO_CALL if line.fault else self.monitor.call(line.call)))
            self.written[-1] = line.written
        return [self.teller().tell(line)]

    def lay_out(self):
        """Lays the station out; gives whether that was accepted."""
        return self.monitor.lay_out(self.names.entries, self.edition, self.counters) == 0

    def teller(self):
        """What tells the run; made at its first line, when all that isn't in the log has been said or is still to be."""
        if self.telling is None:
            self.telling = Telling(width=self.width)
        self.telling.outfit = self.outfit()
        return self.telling

    def outfit(self):
        """What the station has beside its processes."""
        return Outfit(self.edition, tuple(self.counters))

    def station(self):
        """The station as the run leaves it; before the first call, as it would be laid out."""
        teller = self.teller()
        if teller.station and self.names.laid:
            return teller.station
        preview = Telling(width=self.width, outfit=self.outfit())
        preview.entries = list(self.names.entries)
        return preview.lay_out()

    # ---- back and forth

    def rebuild(self, steps):
        """The run that these steps are."""
        self.steps = list(steps)
        self.begin()
        for step in self.steps:
            self.take(step)

    def undo(self):
        """Takes the last step back; gives it, or None where there is none."""
        if not self.steps:
            return None
        step = self.steps.pop()
        self.undone.append(step)
        self.rebuild(step.earlier if step.name == LOAD else self.steps)
        return step

    def again(self):
        """Does the step that was taken back last; gives its rows, or None where there is none."""
        if not self.undone:
            return None
        step = self.undone.pop()
        if step.name == LOAD:
            self.rebuild([step])
            return []
        rows = self.take(step)
        self.steps.append(step)
        return rows

    def anew(self):
        """Begins a run anew; undo brings back the one before."""
        self.undone.clear()
        self.rebuild([Step(LOAD, (), None, tuple(self.steps))])

    # ---- what it comes to

    def log(self, answers=False):
        """The bytes of the log; with answers each stands behind its call, and those that the script had are left out."""
        gathered = []
        for raw, written in zip(self.raws, self.written):
            if not (answers and raw.startswith(MARK)):
                gathered.append(raw)
            gathered += [MARK + line for line in written] if answers else []
        data = b"".join(line + b"\n" for line in gathered)
        return data[:-1] if self.torn and data else data

    def words(self):
        """The run in words, a line each."""
        return [*settings_said(self.edition, self.counters), *log_said(self.raws, self.torn)]


def setting_faults(edition, counters):
    """What is wrong with edition and counters, a sentence each."""
    faults = [] if edition in (0, 1) else [f"The edition is {edition}, and there are 0 and 1."]
    if len(counters) > MOST_SEMAPHORES:
        faults.append(f"There are {len(counters)} semaphores, and {MOST_SEMAPHORES} are the most.")
    return faults + [f"Semaphore {number} begins with {counter}, and {MOST_COUNTER} is the most."
                     for number, counter in enumerate(counters, 1) if counter > MOST_COUNTER]


def is_of_run(statement):
    """Whether a statement belongs to the run: it can be undone, and is saved."""
    return statement.name in GIVES_LINES or statement.name in SETTINGS or statement.name in (TORN, ANSWERED)
