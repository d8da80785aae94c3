"""The command: two logs compared and told, their bare numbers, or a station held to the monitor."""

import argparse
import os
import shutil
import signal
import subprocess
import sys
import tempfile

from desk.compare import pairs, program
from desk.compare.beside import Beside
from desk.compare.monitor import hold
from desk.log import native, standard
from desk.log.outfit import add_outfit, outfit_of
from desk.log.parser import Parser
from desk.log.standard import CannotGoOn

MOST = 10           # so many differing lines are shown, and so many that run on, unless asked otherwise
ALL = 2 ** 64 - 1

ABOUT = """Compares two logs, and tells where they differ and what the longer one goes on
with: call by call where both carry a station's answers, else line by line; or
holds a log that carries answers to the monitor, and says whether a buffer was
lost. What compares is proved."""
EXITS = """A log that carries a station's answers has its calls as the replay reads them,
and behind each call the answers, marked with '> '. Of a station of the second
edition --to-monitor wants --edition 1, of one with semaphores --semaphores.

exit codes: 0 the logs agree, 1 they differ, 2 there was trouble (one sentence
says why)
./compare --version says which version this is."""


def count(text):
    """A count of lines."""
    if not text.isdecimal() or not text.isascii():
        raise argparse.ArgumentTypeError(f"'{text}' is no number of lines")
    return min(int(text), ALL)


def words_of_command(arguments):
    """The command line, read."""
    parser = Parser("./compare", ABOUT, EXITS, usage="./compare [OPTIONS] ONE TWO\n       ./compare --to-monitor LOG")
    parser.add_argument("logs", nargs="*", metavar="LOG", help="the two logs, or the station's log; - is standard input")
    parser.add_argument("--numbers", action="store_true",
                        help="write the numbers of the lines that differ, and nothing else; of calls "
                        "those in the first log, or in the station's")
    parser.add_argument("--most", type=count, default=MOST, metavar="N",
                        help=f"show at most N lines or calls that differ, and N that run on ({MOST})")
    parser.add_argument("--all", action="store_const", const=ALL, dest="most", help="show every line that differs or runs on")
    parser.add_argument("--lines", action="store_true", help="compare two logs line by line, also where both carry answers")
    parser.add_argument("--to-monitor", action="store_true", help="hold a station's log to the proved monitor")
    add_outfit(parser)
    parser.add_argument("--progress", action="store_true", help="say how far it is, also where nobody seems to look")
    wanted = parser.parse_args(arguments)
    named, due = len(wanted.logs), ("one log is", 1) if wanted.to_monitor else ("two logs are", 2)
    if named != due[1]:
        were = {0: "no log was", 1: "one log was"}.get(named, f"{named} logs were")
        parser.error(f"{due[0]} wanted, and {were} named")
    return wanted


def look(path):
    """Says what is wrong with a file before anything is built."""
    if path == "-":
        if sys.stdin is None:
            raise CannotGoOn("standard input is closed, and '-' names it.")
        return
    if not os.path.exists(path):
        raise CannotGoOn(f"there is no file '{path}'.")
    if os.path.isdir(path):
        raise CannotGoOn(f"'{path}' is a folder, not a file.")
    if not os.access(path, os.R_OK):
        raise CannotGoOn(f"the file '{path}' may not be read.")


def numbers(wanted, progress):
    """Has the program write its bare numbers; gives its exit code."""
    words = program.words(["--numbers"], *wanted.logs, progress)
    code = subprocess.run(words, check=False).returncode
    if code == -signal.SIGPIPE:
        raise BrokenPipeError  # a reader who has gone ends the program quietly
    program.end(code)
    return code


def tell(wanted, progress):
    """Tells where two logs differ: at the end, so that no word of progress stands between, unless all is asked for."""
    rows = program.Rows(*wanted.logs, wanted.most, progress)
    beside = Beside(*wanted.names)
    texts = beside.lines(rows)
    if wanted.most != ALL:
        texts = list(texts)
    for text in texts:
        standard.say(text + "\n")
    for sentence in beside.summary(rows):
        standard.say(sentence)
    return rows.code


def run(wanted):
    """What is asked for; gives the exit code."""
    standard.need_output()
    for path in wanted.logs:
        look(path)
    if wanted.logs.count("-") > 1:
        raise CannotGoOn("standard input can be read only once, and '-' names it twice.")
    native.build("compare", "compare")
    wanted.names = ["standard input" if path == "-" else path for path in wanted.logs]
    with tempfile.TemporaryDirectory() as folder:
        wanted.logs = [kept_input(folder) if path == "-" else path for path in wanted.logs]
        return compared(wanted)


def kept_input(folder):
    """Standard input as a file of a folder, since it can be read only once; gives its path."""
    path = os.path.join(folder, "standard-input")
    with open(path, "wb") as file:
        shutil.copyfileobj(sys.stdin.buffer, file)
    return path


def compared(wanted):
    """Compares as is asked for, where all can be read; gives the exit code."""
    is_seen = sys.stderr is not None and sys.stderr.isatty()
    if wanted.to_monitor:
        return hold(wanted, outfit_of(wanted), wanted.progress or is_seen)
    if not wanted.lines and all(map(pairs.carries_answers, wanted.logs)):
        return pairs.compare(wanted)
    progress = wanted.progress or (is_seen and not (sys.stdout.isatty() and (wanted.numbers or wanted.most == ALL)))
    return (numbers if wanted.numbers else tell)(wanted, progress)


def main(arguments):
    """The whole command; gives its exit code."""
    return standard.command("compare", lambda: run(words_of_command(arguments)))
