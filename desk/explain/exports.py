"""What a log is handed to other tools as: lines of JSON, numbers, a trace and signals; the options for these, and the files."""

import json

from desk.explain import canvas
from desk.explain.moments import Moments
from desk.explain.objects import Objects, tell_objects
from desk.explain.statistics import Statistics
from desk.explain.summary import summary_told
from desk.explain.trace import trace_of
from desk.explain.vcd import vcd_of
from desk.log import standard
from desk.log.standard import CannotGoOn


def add_exports(parser):
    """The options."""
    parser.add_argument("--json", action="store_true", help="a line of JSON for each line instead; docs/JSON.md says what stands there")
    parser.add_argument("--statistics", action="store_true", help="only the numbers by which buffers and priorities are chosen; with --json as JSON")
    parser.add_argument("--trace", metavar="OUT.json", help="also write the run as a trace, for Perfetto or Chrome's tracing page")
    parser.add_argument("--vcd", metavar="OUT.vcd", help="also write states and queues as signals, for GTKWave")


def trouble_with(wanted, chosen):
    """Which of the options don't go together, or with those that choose lines; None where all is well."""
    if wanted.json and (wanted.screen or wanted.page is not None or wanted.summary or wanted.walks):
        other = "--screen" if wanted.screen else "--page" if wanted.page is not None else "--summary" if wanted.summary else "--walks"
        return f"{other} doesn't go with --json"
    if wanted.statistics and (wanted.screen or wanted.page is not None or chosen):
        other = "--screen" if wanted.screen else "--page" if wanted.page is not None else chosen[0]
        return f"{other} doesn't go with --statistics, which are of the whole log"
    if wanted.screen and (wanted.trace is not None or wanted.vcd is not None):
        return f"--screen doesn't go with {'--trace' if wanted.trace is not None else '--vcd'}"
    return None


class Exports:
    """What is recorded of a run for other tools, as the command line asks for it."""

    def __init__(self, wanted):
        self.wanted = wanted
        self.statistics = Statistics() if wanted.statistics else None
        self.moments = Moments() if wanted.trace is not None or wanted.vcd is not None else None

    def check(self):
        """Refuses files that would be destroyed."""
        for kind, out in ((canvas.TRACE, self.wanted.trace), (canvas.SIGNALS, self.wanted.vcd)):
            if out is not None:
                canvas.check(kind, out, self.wanted.file)

    def takes_output(self):
        """Whether a file goes to standard output, where nothing else is told then."""
        return canvas.STANDARD_OUTPUT in (self.wanted.trace, self.wanted.vcd)

    def telling(self, kind):
        """The telling that is wanted: as objects, or as it is."""
        return Objects if self.wanted.json else kind

    def record(self, telling):
        """Has a telling's calls recorded."""
        telling.recorders += [recorder for recorder in (self.statistics, self.moments) if recorder]

    def tell(self, answers, telling, progress, speaks):
        """Tells the log as lines of JSON, or its statistics; gives the exit code."""
        code = tell_objects(answers, telling, progress, speaks and not self.statistics)
        if self.statistics and speaks and code == 0:
            told = self.statistics
            standard.say(json.dumps({"is": "statistics", **told.parts()}) if self.wanted.json else
                         summary_told(told.sections(), telling.width, "Statistics"))
        return code

    def put(self):
        """Writes the files."""
        if self.moments and not self.moments.moments:
            raise CannotGoOn("the log has no call that was answered, so there is nothing to write.")
        if self.wanted.trace is not None:
            canvas.put(canvas.TRACE, self.wanted.trace, trace_of(self.moments))
        if self.wanted.vcd is not None:
            canvas.put(canvas.SIGNALS, self.wanted.vcd, vcd_of(self.moments))
