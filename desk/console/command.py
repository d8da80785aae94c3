"""The command: runs a script or a person's words, turns words into a log, or a log into words."""

import os
import sys

from desk.console import files
from desk.console.console import Console, Quit, options_of, statements_of
from desk.console.keyboard import talk
from desk.console.mistakes import Mistake, pointed
from desk.console.page import write_page
from desk.console.saying import log_said, settings_said
from desk.console.session import Session
from desk.console.tokens import decoded
from desk.log import lines, standard
from desk.log.outfit import add_outfit
from desk.log.parser import Parser
from desk.log.standard import CannotGoOn
from desk.log.words import HEADING, WIDTH, row
from desk.served.monitor import Monitor

MOST_MISTAKES = 10  # so many are told, the rest counted
WRONG = 1           # how the command ends where the script has a mistake

ABOUT = """Runs a station that is said in words: each call is served by the proved monitor
and told as ./explain tells it. The words come from SCRIPT, from standard input
or from the keyboard; docs/CONSOLE.md describes them, and 'help' names them all.
A log is taken for a script too."""
EXITS = """--log writes the calls as a log and tells nothing; with --answers each has the
monitor's answers behind it, marked with '> '. --words turns a log into words, a
line for a line; these turned into a log again are the same bytes. A log has no
line for edition and semaphores: --edition and --semaphores say them.

A page is one file that needs no network; clang and lld make the monitor in it.
A log takes the place of no file but an older log, a page of none but an older
page. At the keyboard the prompt says who runs; Control-D ends.

exit codes: 0 all was done, 1 the script has a mistake (told with its line and
column), 2 it could not be done (one sentence says why)
./console --version says which version this is."""


def words_of_command(arguments):
    """The command line, read."""
    parser = Parser("./console", ABOUT, EXITS)
    parser.add_argument("file", nargs="?", metavar="SCRIPT", help="the words; standard input where it is - or no file is named")
    ways = parser.add_mutually_exclusive_group()
    ways.add_argument("--log", metavar="OUT", help="write the calls as a log; - is standard output")
    ways.add_argument("--words", action="store_true", help="turn a log into words, on standard output")
    ways.add_argument("--page", metavar="OUT.html", help="write a page for a web browser: a station to play with, the monitor inside")
    parser.add_argument("--answers", action="store_true", help="with --log: each call has its answers behind it")
    add_outfit(parser)
    wanted = parser.parse_args(arguments)
    wanted.file = None if wanted.file == "-" else wanted.file
    if wanted.answers and wanted.log is None:
        raise CannotGoOn("--answers goes with --log; ./console --help says how it is used.")
    if wanted.page is not None and wanted.file is not None:
        raise CannotGoOn("a page has its scenarios inside, and no script; ./console --help says how it is used.")
    return wanted


def data_of(wanted):
    """The bytes of the script or log."""
    if wanted.file is not None:
        return files.read(wanted.file)
    if sys.stdin is None:
        raise CannotGoOn("standard input is closed, and no file is named.")
    return files.read_input()


def at_keyboard(wanted):
    """Whether a person types."""
    return wanted.file is None and wanted.log is None and not wanted.words and sys.stdin is not None and os.isatty(standard.IN)


def settings_of(wanted):
    """The statements that the options stand for."""
    return statements_of("".join(line + "\n" for line in settings_said(wanted.edition, wanted.semaphores)).encode())[0]


def tell_mistakes(mistakes, data, name):
    """Tells what is wrong with a script; gives the exit code."""
    source = decoded(data).removeprefix("\ufeff").split("\n")
    for mistake in mistakes[:MOST_MISTAKES]:
        standard.complain("console", f"{name}, {mistake.told()}\n{pointed(source[mistake.place - 1], mistake.column)}")
    if len(mistakes) > MOST_MISTAKES:
        standard.complain("console", f"and {len(mistakes) - MOST_MISTAKES} mistakes more.")
    return WRONG


def run(console, statements, say):
    """Does the statements in order; gives the mistake that ended it, or None."""
    for statement in statements:
        try:
            say(console.do(statement))
        except Quit:
            break
        except Mistake as mistake:
            mistake.place = statement.place
            return mistake
    return None


class Told:
    """Says what comes, the heading first."""

    def __init__(self, width):
        self.width, self.begun = width, False

    def say(self, words):
        """Some lines."""
        if words and not self.begun:
            standard.say(row(*HEADING, self.width))
            self.begun = True
        if words:
            standard.say("\n".join(words))


def write_words(data, wanted):
    """A log in words on standard output; gives the exit code."""
    said = [*settings_said(wanted.edition, wanted.semaphores), *log_said(lines.cut(data), bool(data) and not data.endswith(b"\n"))]
    if said:
        standard.say("\n".join(said))
    return 0


def write_log(session, wanted):
    """The run as a log, into a file or on standard output."""
    data = session.log(wanted.answers)
    if wanted.log == "-":
        standard.say_all()
        standard.to_output(sys.stdout.buffer.write, data)
    else:
        files.write(wanted.log, data, wanted.file)
    options = options_of(session.edition, session.counters)
    if options:
        standard.whisper(f"console: a log has no line for edition and semaphores; this one's are {options}.\n")


def console_run(wanted):
    """What the command line asks for; gives the exit code."""
    standard.need_output()
    sys.stdout.reconfigure(errors="replace")  # a terminal may lack a letter of a text
    if wanted.page is not None:
        write_page(wanted.page)
        return 0
    if at_keyboard(wanted):
        return with_session(wanted, talk)
    data = data_of(wanted)
    if wanted.words:
        return write_words(data, wanted)
    statements, mistakes = statements_of(data, wanted.file)
    name = f"the file {files.named(wanted.file)}" if wanted.file else "standard input"
    if mistakes:
        return tell_mistakes(mistakes, data, name)
    quiet = wanted.log is not None and not wanted.answers and not any(statement.caller for statement in statements)
    return with_session(wanted, lambda console: run_script(console, statements, wanted, data, name), quiet)


def run_script(console, statements, wanted, data, name):
    """A whole script; gives the exit code."""
    told = Told(console.session.width)
    mistake = run(console, statements, (lambda words: None) if wanted.log is not None else told.say)
    if mistake:
        standard.say_all()
        return tell_mistakes([mistake], data, name)
    if wanted.log is not None:
        write_log(console.session, wanted)
    return 0


def with_session(wanted, body, quiet=False):
    """Gives a fresh console to the body; whatever happens, the monitor's program ends."""
    monitor = None if quiet else Monitor()
    try:
        console = Console(Session(monitor, standard.width(WIDTH)))
        for statement in settings_of(wanted):
            console.do(statement)
        return body(console)
    finally:
        if monitor:
            monitor.close()


def main(arguments):
    """The whole command; gives its exit code."""
    return standard.command("console", lambda: console_run(words_of_command(arguments)))
