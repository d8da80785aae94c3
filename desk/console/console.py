"""Statements done one after the other: those of the run by a session, and those beside it."""

from desk.console import files, helping, showing
from desk.console.mistakes import Mistake
from desk.console.reading import read_script
from desk.console.session import LOAD, is_of_run
from desk.console.tokens import decoded
from desk.console.saying import log_said
from desk.log import lines
from desk.log.refusals import plural
from desk.log.standard import CannotGoOn

SHOWN = {
    "screen": lambda session, values: showing.screen(session), "open": lambda session, values: showing.open_buffers(session),
    "stuck": lambda session, values: showing.stuck(session, session.names.number_of(values[0])),
    "rings": lambda session, values: showing.rings(session), "table": lambda session, values: showing.table(session),
    "why": lambda session, values: showing.why(session),
}
AFTER_REFUSAL = "The layout was refused, and no line after it is read; 'undo' takes back the line that brought it about."
NOT_IN_A_FILE = ("load", "save")  # what a loaded file may not do


class Quit(Exception):
    """The end was asked for."""


def statements_of(data, name=b""):
    """The statements of a file, which is a script or a log, and its mistakes."""
    if files.is_log(data, name):
        return read_script("".join(line + "\n" for line in log_said(lines.cut(data), bool(data) and not data.endswith(b"\n"))))
    return read_script(decoded(data))


class Console:
    """A session, and what can be done beside it. Each statement gives the lines of text that tell it."""

    def __init__(self, session):
        self.session, self.loading = session, False

    def do(self, statement):
        """Does one statement. Raises a Mistake, and has then done nothing, or Quit."""
        if is_of_run(statement):
            was_over = self.session.over
            return self.session.do(statement) or ([AFTER_REFUSAL] if was_over else [])
        if self.session.monitor is None:
            return self.do_quietly(statement)
        if statement.name in SHOWN:
            return showing.refused_layout(self.session) or SHOWN[statement.name](self.session, statement.values)
        return getattr(self, f"do_{statement.name}")(statement)

    def do_quietly(self, statement):
        """Where nothing is told: only what changes the run is done."""
        quiet = statement.name in SHOWN or statement.name == "help"
        return [] if quiet else getattr(self, f"do_{statement.name}")(statement)

    def do_undo(self, _):
        """Takes the last statement back."""
        step = self.session.undo()
        if step is None:
            return ["There is nothing to take back."]
        what = "the file that was loaded" if step.name == LOAD else f"'{step.name}'"
        return [f"Taken back: {what}. {self.length()}"]

    def do_again(self, _):
        """Does what was taken back."""
        rows = self.session.again()
        return ["Nothing was taken back."] if rows is None else rows

    def length(self):
        """How far the run is."""
        count = len(self.session.raws)
        return f"The run has {plural(count, 'line')}."

    def do_help(self, statement):
        """What a word says."""
        return helping.help_told(statement.values[0], self.session.width)

    def do_quit(self, _):
        """The end."""
        raise Quit

    def do_save(self, statement):
        """The run into a file."""
        self.refuse_in_file(statement)
        name, session = statement.values[0], self.session
        data = session.log() if name.endswith(files.LOG_ENDING) else files.SAVED + "".join(line + "\n" for line in session.words()).encode()
        try:
            files.write(name, data)
        except CannotGoOn as trouble:
            raise Mistake(1, str(trouble)) from trouble
        return [f"Saved in {files.named(name)}: {plural(len(session.raws), 'line')}.", *self.unsaid(name)]

    def unsaid(self, name):
        """What a log that was saved doesn't say."""
        session = self.session
        options = options_of(session.edition, session.counters)
        return [f"A log has no line for edition and semaphores: ./explain {options} tells it."] if options and name.endswith(files.LOG_ENDING) else []

    def do_load(self, statement):
        """A run from a file, in the place of this one."""
        self.refuse_in_file(statement)
        name = statement.values[0]
        try:
            statements, mistakes = statements_of(files.read(name), name)
        except CannotGoOn as trouble:
            raise Mistake(1, str(trouble)) from trouble
        if mistakes:
            raise Mistake(1, f"the file {files.named(name)}, {mistakes[0].told()}")
        steps, undone = list(self.session.steps), list(self.session.undone)
        self.session.anew()
        try:
            return self.do_all(statements)
        except Mistake as mistake:
            self.session.rebuild(steps)
            self.session.undone = undone
            raise Mistake(1, f"the file {files.named(name)}, {mistake.told()}") from mistake

    def do_all(self, statements):
        """The statements of a loaded file; 'quit' ends it."""
        told, self.loading = [], True
        try:
            for statement in statements:
                try:
                    told += self.do(statement)
                except Quit:
                    break
                except Mistake as mistake:
                    mistake.place = mistake.place or statement.place
                    raise
        finally:
            self.loading = False
        return told

    def refuse_in_file(self, statement):
        """Refuses what only a script itself, or a person, may do."""
        if self.loading:
            raise Mistake(1, f"a file that is loaded can't '{statement.name}'.")


def options_of(edition, counters):
    """The options that say what a log has no line for."""
    options = [f"--edition {edition}"] if edition else []
    return " ".join(options + ([f"--semaphores {','.join(map(str, counters))}"] if counters else []))
