"""The logs that the words of a command line come to: files as they are, and of folders every file in them and below, in the order of
their names. Left out are survey.txt and what begins with a dot."""

import os
import stat
from collections import namedtuple

from desk.log.standard import CannotGoOn
from desk.survey.settings import NAME, printable, settings_in, settled

# A log: its path, its name as it can be printed, its bytes, what is set for it, and, where it can't even be opened, why.
Log = namedtuple("Log", "path name size settings reason")


def log_of(path, given, options):
    """A log at a path, whatever is there."""
    settings = settled(path, given, options)
    try:
        there = os.stat(path)
    except OSError as error:
        return Log(path, printable(path), 0, settings, f"it can't be read: {error.strerror}")
    reason = None if stat.S_ISREG(there.st_mode) else "it is no file"
    if reason is None and not os.access(path, os.R_OK):
        reason = "it may not be read"
    return Log(path, printable(path), there.st_size, settings, reason)


def below(folder, above, options):
    """The logs in a folder and below it; a link to a folder isn't followed."""
    given = [*above, *settings_in(folder)]
    try:
        names = sorted(name for name in os.listdir(folder) if not name.startswith(".") and name != NAME)
    except OSError as error:
        raise CannotGoOn(f"the folder '{folder}' can't be read: {error.strerror}.") from error
    for name in names:
        path = os.path.join(folder, name)
        if not os.path.isdir(path):
            yield log_of(path, given, options)
        elif not os.path.islink(path):
            yield from below(path, given, options)


def logs_of(words, options):
    """All logs that are named, each once."""
    logs = []
    for word in words:
        if not os.path.lexists(word):
            raise CannotGoOn(f"there is no file or folder '{word}'.")
        if os.path.isdir(word):
            logs += below(word, [], options)
        else:
            logs.append(log_of(word, settings_in(os.path.dirname(word) or os.curdir), options))
    if not logs:
        raise CannotGoOn(f"there is no log in '{words[0]}'." if len(words) == 1 else "there is no log in these folders.")
    return logs
