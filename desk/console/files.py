"""The files of the console: scripts and logs that are read, logs and words that are written. None is destroyed that is no older
one of its kind, and each comes whole or not at all."""

import os
import stat

from desk.console.mistakes import printable
from desk.console.tokens import decoded
from desk.log import lines
from desk.log.standard import IN, CannotGoOn

LOG_ENDING = b".log"
SAVED = b"# A run saved by ./console.\n"  # how a file of words begins that was saved
LOOKED_AT = 4096     # bytes of a file that tell what it is
MOST_BYTES = 1 << 26  # no longer file is read


def named(path):
    """A file's name as it may be printed."""
    return f"'{printable(decoded(os.fsencode(path)))}'"


def read(path):
    """The bytes of a file."""
    if os.path.isdir(path):
        raise CannotGoOn(f"{named(path)} is a folder, not a file.")
    try:
        with open(path, "rb") as file:
            return read_all(file, f"the file {named(path)}")
    except OSError as error:
        raise CannotGoOn(f"the file {named(path)} can't be read: {error.strerror}.") from error


def read_input():
    """The bytes of standard input."""
    try:
        return read_all(os.fdopen(IN, "rb", closefd=False), "standard input")
    except OSError as error:
        raise CannotGoOn(f"standard input can't be read: {error.strerror}.") from error


def read_all(file, name):
    """The bytes of an open file; refuses one without end."""
    data = file.read(MOST_BYTES + 1)
    if len(data) > MOST_BYTES:
        raise CannotGoOn(f"{name} has more than {MOST_BYTES >> 20} million bytes, and so many are no script.")
    return data


def is_log(data, name=b""):
    """Whether a file is a log: its name says so, or one of its first lines is 26 digits, which no line of words is."""
    return os.fsencode(name or b"").endswith(LOG_ENDING) or any(map(lines.WELL_SHAPED, data[:LOOKED_AT].split(b"\n")))


def may_replace(path, data):
    """Whether a file that is there may be replaced by these bytes: a log by a log, saved words by saved words, and what is empty."""
    there = read(path)
    return not there or is_log(there) and not data.startswith(SAVED) or there.startswith(SAVED) and data.startswith(SAVED)


def write(path, data, source=None):
    """Puts bytes into a file; refuses one that would be destroyed, and the source itself. A link stays a link."""
    if not path:
        raise CannotGoOn("a file that is written wants a name.")
    try:
        there = os.stat(path)
    except OSError:
        there = None  # if nothing can be there, the writing says why
    if there and stat.S_ISDIR(there.st_mode):
        raise CannotGoOn(f"{named(path)} is a folder, not a file.")
    if there and source and os.path.samestat(there, os.stat(source)):
        raise CannotGoOn(f"{named(path)} is what is read, and is left alone; give the log another name.")
    if there and (not stat.S_ISREG(there.st_mode) or not may_replace(path, data)):
        kind = "saved words" if data.startswith(SAVED) else "log"
        raise CannotGoOn(f"{named(path)} is there and is no older {kind}, so it is left alone.")
    put(os.path.realpath(path), data, path)


def put(file, data, path):
    """Writes beside the file, and moves it there once it is whole."""
    part = os.path.join(os.fsencode(os.path.dirname(file)), b"console-%d.part" % os.getpid())
    try:
        with open(part, "xb") as fresh:
            try:
                fresh.write(data)
                fresh.flush()
                os.replace(part, file)
            except BaseException:
                os.unlink(part)
                raise
    except OSError as error:
        raise CannotGoOn(f"the file {named(path)} can't be written: {error.strerror}.") from error
