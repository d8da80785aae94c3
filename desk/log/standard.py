"""The three standard streams as the command may find them: closed, full, or with nobody left to read.

Each of these is a sentence, or quiet where the reader has gone; Python's own words would be a traceback. What the command
says on standard error is written at once and past Python's own stream, which would try again at its end what failed.
"""

import os
import signal
import sys

IN, OUT, ERROR = range(3)
CANNOT = 2       # how a command ends that can't go on
LEAST_WIDTH = 40  # a narrower terminal breaks the rows itself


class CannotGoOn(Exception):
    """What the command can't go on from: a sentence, or nothing where the sentence was said already."""


def hold_places():
    """Gives a closed stream's number to the null device, so that no file opened later is taken for the stream."""
    for number in (IN, OUT, ERROR):
        try:
            os.fstat(number)
        except OSError:
            os.open(os.devnull, os.O_RDWR)  # the lowest number that is free


def whisper(words):
    """Some words on standard error, if anyone can hear them."""
    try:
        os.write(ERROR, os.fsencode(words))
    except OSError:
        pass


def complain(name, sentence):
    """The sentence that a command ends with, after all that it had to tell."""
    settle()
    whisper(f"{name}: {sentence}\n")


def need_output():
    """Refuses to begin where nothing can be told."""
    if sys.stdout is None:
        raise CannotGoOn("standard output is closed, so there is nowhere to write.")


def width(otherwise):
    """How wide the terminal is that standard output goes to; the other width where there is none."""
    try:
        columns = os.get_terminal_size(OUT).columns
    except OSError:
        columns = 0
    return max(LEAST_WIDTH, columns) if columns else otherwise


def say(words):
    """Some lines on standard output."""
    to_output(sys.stdout.write, words + "\n")


def say_all():
    """Writes what Python still holds back of the lines said."""
    if sys.stdout is not None:
        to_output(sys.stdout.flush)


def to_output(write, *words):
    """Writes to standard output; a full disk is a sentence, a reader who has gone goes on as it is."""
    try:
        write(*words)
    except BrokenPipeError:
        raise
    except OSError as error:
        raise CannotGoOn(f"standard output can't be written: {error.strerror}.") from error


def settle():
    """Writes what is still held back, or drops it for good where that fails."""
    try:
        if sys.stdout is not None:
            sys.stdout.flush()
    except OSError:
        os.dup2(os.open(os.devnull, os.O_WRONLY), OUT)


def end_unread():
    """Ends as usual tools do whose reader has gone: by the signal for it, without a word."""
    settle()
    signal.signal(signal.SIGPIPE, signal.SIG_DFL)
    os.kill(os.getpid(), signal.SIGPIPE)


def interrupts(taken):
    """Has Control-C raise KeyboardInterrupt (taken), or end the program at once; where it is ignored it stays so."""
    if signal.getsignal(signal.SIGINT) != signal.SIG_IGN:
        signal.signal(signal.SIGINT, signal.default_int_handler if taken else signal.SIG_DFL)


def command(name, body):
    """Runs a whole command, and ends it with a sentence where it can't go on; gives its exit code."""
    try:
        interrupts(taken=True)
        hold_places()
        code = body()
        say_all()
        return code
    except CannotGoOn as sentence:
        if sentence.args:
            complain(name, sentence)
    except BrokenPipeError:
        end_unread()
    except KeyboardInterrupt:
        interrupts(taken=False)
        complain(name, "interrupted before the end.")
    finally:
        interrupts(taken=False)
    return CANNOT
