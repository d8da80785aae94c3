"""The files that pictures, pages and the like are put in: never the log, nor any other that is none of their kind; and each comes whole
or not at all."""

import os
import stat
from collections import namedtuple
from functools import partial
from xml.etree import ElementTree

from desk.log import standard
from desk.log.standard import IN, CannotGoOn

STANDARD_OUTPUT = "-"
SVG_TAGS = ("svg", "{http://www.w3.org/2000/svg}svg")
PAGE_BEGINS = b"<!DOCTYPE html>\n<!-- A page of ./explain -->\n"
TRACE_BEGINS = b'{"otherData": {"made by": "./explain"}'
SIGNALS_BEGIN = b"$comment Signals of ./explain $end\n"

# What is put in a file: the option that asks for it, what it is called, what a file has to hold that it may replace and how
# that is told.
Kind = namedtuple("Kind", "option noun older is_one")


def is_svg(path):
    """Whether a file holds an SVG picture: its outermost element says so."""
    try:
        with open(path, "rb") as file:
            _, outermost = next(ElementTree.iterparse(file, ("start",)))
    except (OSError, ElementTree.ParseError, ValueError, LookupError):  # the last two: an encoding nobody knows
        return False
    return outermost.tag in SVG_TAGS


def begins(path, with_these):
    """Whether a file begins with these bytes, as those of ours do."""
    try:
        with open(path, "rb") as file:
            return file.read(len(with_these)) == with_these
    except OSError:
        return False


PICTURE = Kind("--picture", "picture", "SVG picture", is_svg)
WAITS = Kind("--waits", "drawing", "SVG picture", is_svg)
PAGE = Kind("--page", "page", "page of ./explain", partial(begins, with_these=PAGE_BEGINS))
TRACE = Kind("--trace", "trace", "trace of ./explain", partial(begins, with_these=TRACE_BEGINS))
SIGNALS = Kind("--vcd", "dump", "dump of ./explain", partial(begins, with_these=SIGNALS_BEGIN))


def is_log(there, log):
    """Whether a file that is there is the log, by whatever name; standard input is the log where no file is named."""
    try:
        return os.path.samestat(there, os.fstat(IN) if log is None else os.stat(log))
    except OSError:
        return False


def check(kind, out, log):
    """Refuses a file that would be destroyed."""
    noun = kind.noun
    if out == STANDARD_OUTPUT:
        return
    if not out:
        raise CannotGoOn(f"{kind.option} wants a name for the {noun}.")
    try:
        there = os.stat(out)
    except OSError:
        return  # nothing is there; if nothing can be, the writing says why
    if stat.S_ISDIR(there.st_mode):
        raise CannotGoOn(f"the {noun} '{out}' can't be written: it is a folder.")
    if is_log(there, log):
        raise CannotGoOn(f"'{out}' is the log itself, which a {noun} would destroy; give the {noun} another name.")
    if not stat.S_ISREG(there.st_mode) or not kind.is_one(out):
        raise CannotGoOn(f"'{out}' is there and is no {kind.older}, so it is left alone; "
                         f"after {kind.option} comes the {noun}'s name, then the log's.")
    if not os.access(out, os.W_OK):
        raise CannotGoOn(f"the {noun} '{out}' may not be written.")


def put(kind, out, pieces):
    """Writes a picture or page, piece by piece, beside its file, and moves it there once it is whole; a link stays a link. Standard
    output takes it as it is."""
    if out == STANDARD_OUTPUT:
        for piece in pieces:
            standard.say(piece.rstrip("\n"))
        return
    file = os.path.realpath(out)
    part = os.path.join(os.path.dirname(file), f"explain-{os.getpid()}.part")
    try:
        with open(part, "x", encoding="utf-8") as picture:
            try:
                picture.writelines(pieces)
                picture.flush()
                os.replace(part, file)
            except BaseException:
                os.unlink(part)
                raise
    except OSError as error:
        raise CannotGoOn(f"the {kind.noun} '{out}' can't be written: {error.strerror}.") from error


def names_of(out, count):
    """The files of so many sheets: the one asked for, or that name with the sheet's number, in as many digits for each, so that they
    sort."""
    if count == 1:
        return [out]
    stem, ending = os.path.splitext(out)
    return [f"{stem}-{number:0{max(2, len(str(count)))}}{ending}" for number in range(1, count + 1)]


def put_sheets(out, log, count, sheets):
    """Writes the sheets of a picture, a file each, if none of the files would be destroyed; gives their names."""
    if out == STANDARD_OUTPUT and count > 1:
        raise CannotGoOn(f"the picture has {count} sheets, and standard output takes one; --lines, --process and --refused choose fewer calls, "
                         "and --columns puts more on a sheet.")
    names = names_of(out, count)
    for name in names if count > 1 else ():
        check(PICTURE, name, log)
    for name, sheet in zip(names, sheets):
        put(PICTURE, name, [sheet])
    return names
