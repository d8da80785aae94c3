"""What is set for a log: the station's edition and semaphores, the shop's name, the month. It stands in survey.txt, in the log's folder
or in one above it as far as the survey goes; the options hold before it.

A line is a setting and its value, 'edition 1', for every log of the folder; or, behind a log's name and a colon, for that log
alone: 'may.log: semaphores 1,0'. A name may have * and ? in it. Later lines hold before earlier ones, and # begins a remark.
"""

import argparse
import os
import re
from collections import namedtuple
from fnmatch import fnmatchcase
from functools import partial

from desk.log.layout import Outfit
from desk.log.outfit import counters
from desk.log.parser import number
from desk.log.standard import CannotGoOn

NAME = "survey.txt"
MONTH = re.compile(r"(?<![0-9])((?:19|20)[0-9]{2})[-_.]?(0[1-9]|1[0-2])(?![0-9]{3})")

# What is set for one log; the shop and the month are texts, or None.
Settings = namedtuple("Settings", "outfit shop month")
# One line of survey.txt: which logs it is for, what it sets, and its value.
Setting = namedtuple("Setting", "logs key value")


def month(word):
    """A month as 2026-03."""
    found = MONTH.fullmatch(word)
    if found is None:
        raise argparse.ArgumentTypeError("a month is given as 2026-03")
    return f"{found[1]}-{found[2]}"


def semaphores(word):
    """The counters that semaphores begin with, or none."""
    return () if word == "none" else counters(word)


def shop(word):
    """A shop's name, as it can be printed."""
    if not word.isprintable() or not word.strip():
        raise argparse.ArgumentTypeError("a shop's name has letters that can be printed")
    return word.strip()


READ = {"edition": partial(number, least=0, most=1, what="an edition"), "semaphores": semaphores, "shop": shop, "month": month}


def setting_of(line):
    """A line of survey.txt, read; None where it says nothing."""
    text = re.sub(r"(^|\s)#.*", "", line).strip()
    if not text:
        return None
    named = re.match(r"(\S.*?):\s+(?=(?:%s)\b)" % "|".join(READ), text)
    logs, rest = (named[1], text[named.end():]) if named else ("*", text)
    key, _, value = rest.partition(" ")
    if key not in READ:
        raise argparse.ArgumentTypeError(f"there is no setting '{key}'; there are edition, semaphores, shop and month")
    if not value.strip():
        raise argparse.ArgumentTypeError(f"{key} wants something behind it")
    return Setting(logs, key, READ[key](value.strip()))


def settings_in(folder):
    """The settings that stand in a folder; none where it has no survey.txt."""
    path = os.path.join(folder, NAME)
    if not os.path.lexists(path):
        return []
    try:
        with open(path, encoding="utf-8-sig") as file:
            rows = file.read().splitlines()
    except (OSError, ValueError) as error:
        raise CannotGoOn(f"'{path}' can't be read: {getattr(error, 'strerror', None) or 'it is no text in UTF-8'}.") from error
    found = []
    for place, row in enumerate(rows, 1):
        try:
            found.append(setting_of(row))
        except argparse.ArgumentTypeError as error:
            raise CannotGoOn(f"'{path}', line {place}: {error}.") from error
    return [one for one in found if one]


def month_in(path):
    """The month that a log's name has in it, or its folder's, as 2026-03; else None."""
    for part in reversed(path.split(os.sep)[-2:]):
        found = MONTH.search(part)
        if found:
            return f"{found[1]}-{found[2]}"
    return None


def settled(path, given, options):
    """What is set for a log, by the settings of its folders from the uppermost down, and by the options."""
    values = {one.key: one.value for one in given if fnmatchcase(os.path.basename(path), one.logs)}
    values.update({key: value for key, value in options.items() if value is not None})
    whose = values.get("shop") or os.path.basename(os.path.dirname(os.path.abspath(path))) or os.sep
    return Settings(Outfit(values.get("edition", 0), values.get("semaphores", ())), printable(whose), values.get("month") or month_in(path))


def printable(text):
    """A text as it can be printed."""
    return "".join(letter if letter.isprintable() else "?" for letter in text)
