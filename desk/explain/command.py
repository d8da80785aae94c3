"""The command: has the log replayed, tells it line by line or shows it as a screen, and paints the picture or writes the
page where one is asked for."""

import os
import stat
import sys

from desk.explain import canvas
from desk.explain.exports import Exports
from desk.explain.options import MOST_SHEETS, SPEED, chosen_by, filter_of, refuse_words, words_of_command
from desk.explain.page import LINE_BYTES, MOST_BYTES, Recording, page, sized, too_large
from desk.explain.picture import Picture
from desk.explain.progress import Progress, fits
from desk.explain.rows import tell_all
from desk.explain.screen import show_all
from desk.explain.strips import COLUMNS
from desk.explain.telling import Telling
from desk.explain.timeline import Timeline
from desk.explain.waits import Waits
from desk.log import standard
from desk.log.outfit import outfit_of
from desk.log.replaying import PIECE, Replay
from desk.log.standard import CannotGoOn
from desk.log.words import WIDTH
from desk.log.woven import Woven
from desk.served.monitor import Monitor
from desk.table.dumps import MOST_BYTES as MOST_DUMPED, dumps_in
from desk.table.telling import told

UNSOUND_TABLE = 1  # how the command ends where a table isn't sound


def open_log(file):
    """The descriptor that the log is read from, and what it is called."""
    if file is None:
        return open_input(), "standard input"
    if os.path.isdir(file):
        raise CannotGoOn(f"'{file}' is a folder, not a file.")
    try:
        return os.open(file, os.O_RDONLY), f"the file '{file}'"
    except OSError as error:
        raise CannotGoOn(f"the file '{file}' can't be read: {error.strerror}.") from error


def open_input():
    """The descriptor of standard input."""
    if sys.stdin is None:
        raise CannotGoOn("standard input is closed, and no file is named.")
    if os.isatty(standard.IN):
        standard.whisper("explain: reading lines from the keyboard; Control-D ends them.\n")
    return standard.IN


def lines_in(log):
    """How many lines a log still has, where it is a file and that can be known before it is read; else None."""
    try:
        if not stat.S_ISREG(os.fstat(log).st_mode):
            return None
        count, place, last = 0, os.lseek(log, 0, os.SEEK_CUR), b"\n"
        while piece := os.pread(log, PIECE, place):
            count, place, last = count + piece.count(b"\n"), place + len(piece), piece[-1:]
        return count + (last != b"\n")
    except OSError:
        return None  # the reading itself says why


def log_name(wanted):
    """The log's name as it can be printed; none for standard input."""
    return "".join(letter if letter.isprintable() else "?" for letter in os.path.basename(wanted.file or ""))


def picture_of(timeline, wanted):
    """The picture of a run; a run without calls has none."""
    if not timeline.columns:
        raise CannotGoOn("the log has no call that was answered, so there is nothing to paint.")
    return Picture(timeline, log_name(wanted), wanted.columns or COLUMNS)


def paint(timeline, wanted):
    """Puts the sheets of the picture in their places."""
    picture = picture_of(timeline, wanted)
    count = len(picture.sheets)
    if count > MOST_SHEETS and not wanted.all_sheets:
        raise CannotGoOn(f"the picture has {count:,} sheets, a file each; --all-sheets paints them all, --lines, --process and --refused choose fewer "
                         "calls.")
    names = canvas.put_sheets(wanted.picture, wanted.file, len(picture.sheets), picture.painted())
    if len(names) > 1:
        standard.whisper(f"explain: the picture has {len(names)} sheets, '{names[0]}' to '{names[-1]}'.\n")


def waits_of(telling):
    """The drawing of who waits for whom; a refused layout has none."""
    if telling.station is None or telling.counts.layout_refused:
        raise CannotGoOn("the layout is refused, so there is nobody to draw.")
    return telling.waits.end(telling.station)


def check_files(wanted):
    """Refuses files that would be destroyed."""
    for kind, out in ((canvas.PICTURE, wanted.picture), (canvas.WAITS, wanted.waits), (canvas.PAGE, wanted.page)):
        if out is not None:
            canvas.check(kind, out, wanted.file)


def refuse_large(wanted, count):
    """Refuses a page that is known to be too large before it is made."""
    if wanted.page is not None and not chosen_by(wanted) and (count or 0) * LINE_BYTES > MOST_BYTES:
        raise CannotGoOn(too_large((count or 0) * LINE_BYTES))


def read_dump(wanted):
    """The bytes of a dump, one more than the most where there are more; and what it is called."""
    descriptor, name = open_log(wanted.file)
    try:
        with os.fdopen(descriptor, "rb", closefd=descriptor != standard.IN) as file:
            return file.read(MOST_DUMPED + 1), name
    except OSError as error:
        raise CannotGoOn(f"{name} can't be read: {error.strerror}.") from error


def tell_dumps(wanted):
    """Tells the tables of a dump; gives 1 where one isn't sound."""
    data, name = read_dump(wanted)
    dumps, monitor, code = dumps_in(data, "little" if wanted.little else "big" if wanted.big else None, name), Monitor("explain"), 0
    try:
        for number, dump in enumerate(dumps, 1):
            lines, is_sound = told(dump.words, monitor, standard.width(WIDTH))
            heading = [f"Table {number} of {len(dumps)}, from line {dump.line} on" + ":"] if len(dumps) > 1 else []
            standard.say("\n".join([*([""] if number > 1 else []), *heading, *lines]))
            code = code if is_sound else UNSOUND_TABLE
    finally:
        monitor.close()
    return code


def explain(wanted):
    """What the command line asks for; gives the exit code. What can be refused is refused before the log is read."""
    standard.need_output()
    refuse_words(wanted)
    if wanted.table:
        return tell_dumps(wanted)
    check_files(wanted)
    exports = Exports(wanted)
    exports.check()
    log, name = open_log(wanted.file)
    timeline = None if wanted.picture is None and wanted.page is None else Timeline()
    says_how_far = wanted.progress or fits()
    count = lines_in(log) if says_how_far or wanted.screen or wanted.page is not None else None
    refuse_large(wanted, count)
    outfit = outfit_of(wanted)
    with (Woven if wanted.answers else Replay)(log, name, outfit) as answers:
        if wanted.screen:
            code = show_all(answers, count, wanted.speed or SPEED, outfit, log)
        else:
            telling = exports.telling(Telling)(timeline, wanted.walks, filter_of(wanted), standard.width(WIDTH), outfit, wanted.answers)
            exports.record(telling)
            telling.waits = Waits(wanted.line, log_name(wanted)) if wanted.waits is not None else None
            if wanted.page is not None:
                telling = Recording(telling)
            speaks = canvas.STANDARD_OUTPUT not in (wanted.picture, wanted.waits, wanted.page) and not exports.takes_output()
            tell = exports.tell if wanted.json or wanted.statistics else tell_all
            code = tell(answers, telling, Progress(count) if says_how_far else None, speaks)
    standard.say_all()
    if wanted.picture is not None:
        paint(timeline, wanted)
    if wanted.waits is not None:
        canvas.put(canvas.WAITS, wanted.waits, [waits_of(telling)])
    if wanted.page is not None:
        canvas.put(canvas.PAGE, wanted.page, sized(page(telling, picture_of(timeline, wanted))))
    exports.put()
    return code


def main(arguments):
    """The whole command; gives its exit code."""
    return standard.command("explain", lambda: explain(words_of_command(arguments)))
