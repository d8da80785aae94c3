"""A log run by the proved monitor: it goes in as it is read, and the answers come out as they are written; neither is held whole.

./replay runs it for a station as the replay has one, desk/log/run.c for one of the second edition or with semaphores.
Lines that are marked as a station's own answers are passed over.
"""

import os
import queue
import subprocess
import threading

from desk import HOME
from desk.log.layout import PLAIN
from desk.log.lines import MARK, OutputEnds, cut, follow_lines
from desk.log.native import build, place_of
from desk.log.outfit import words_of
from desk.log.passed import Passed
from desk.log.standard import CannotGoOn

PIECE = 65536  # bytes that are read at once
AHEAD = 16     # pieces of the log that may be read before they are needed
NO_ANSWERS = "without the monitor's answers there is nothing to tell."
REPLAY = os.path.join(HOME, "replay")
RUN = place_of("run")


def words_to_run(outfit, command):
    """What runs a log at a station of this outfit, built where that is needed; the builder speaks for the command."""
    if outfit == PLAIN:
        return [REPLAY]
    build("run", command, NO_ANSWERS)
    return [RUN, *words_of(outfit)]


def start(outfit, command):
    """What runs a log, with a pipe at either end."""
    words = words_to_run(outfit, command)
    try:
        return subprocess.Popen(words, stdin=subprocess.PIPE, stdout=subprocess.PIPE, bufsize=0)
    except OSError as error:
        raise CannotGoOn(f"'{words[0]}' can't be started: {error.strerror}.") from error


def replayed(log, outfit=PLAIN, command="compare"):
    """The proved monitor's output for a log that is all there; where there is none, it was said why.

    At Control-C the program is waited for: it may have a build to end.
    """
    run = start(outfit, command)
    try:
        output, _ = run.communicate(log)
    except KeyboardInterrupt:
        run.terminate()
        run.wait()
        raise
    if run.returncode != 0:
        raise CannotGoOn(NO_ANSWERS)
    return output


def whole_lines(pieces):
    """Pieces cut anew, so that each ends where a line ends; the last may lack that."""
    begun = []
    for piece in pieces:
        end = piece.rfind(b"\n") + 1
        if end:
            yield b"".join([*begun, piece[:end]])
            begun = []
        begun += [piece[end:]] if end < len(piece) else []
    if begun:
        yield b"".join(begun)


def lines_of(pieces):
    """The lines that some pieces are cut into: only 0A ends a line, and the last may lack it."""
    for piece in whole_lines(pieces):
        yield from cut(piece)


def calls_of(piece):
    """The whole lines of a piece that aren't marked as answers."""
    if MARK not in piece:
        return piece
    return b"".join(line + b"\n" for line in cut(piece) if not line.startswith(MARK))


class Replay:
    """The run of a log that is read from a descriptor; with it a with-statement ends, whatever happens.

    Each piece of the log is handed on before the program is given it: so whoever reads line and answer by turns never waits
    for a line while the program waits for its answers to be read.
    """

    def __init__(self, log, name, outfit=PLAIN, command="explain"):
        self.name, self.pieces, self.passed = name, queue.Queue(AHEAD), Passed(outfit)
        self.run = start(outfit, command)
        threading.Thread(target=self.feed, args=(log,), daemon=True).start()

    def __enter__(self):
        return self

    def __exit__(self, *_):
        self.run.stdout.close()
        self.run.terminate()
        self.run.wait()

    def feed(self, log):
        """Reads the log, piece by piece, for this program and for the one that runs it."""
        try:
            for piece in whole_lines(iter(lambda: os.read(log, PIECE), b"")):
                self.pieces.put(piece)
                self.give(calls_of(piece))
            self.pieces.put(None)
        except OSError as error:
            self.pieces.put(error)
        finally:
            self.give(None)

    def give(self, piece):
        """Gives the program a piece, or the end; if it has ended before, nothing is lost."""
        try:
            if piece is None:
                self.run.stdin.close()
                return
            left = memoryview(piece)
            while left:
                left = left[self.run.stdin.write(left):]
        except OSError:
            pass

    def followed(self):
        """Each call of the log with its answer."""
        return follow_lines(self.passed.calls(self.log()), self.output())

    def log(self):
        """The lines of the log."""
        return lines_of(self.log_pieces())

    def log_pieces(self):
        """The pieces of the log as they come."""
        while piece := self.pieces.get():
            if isinstance(piece, OSError):
                raise CannotGoOn(f"{self.name} can't be read: {piece.strerror}.") from piece
            yield piece

    def output(self):
        """The lines of the output."""
        return lines_of(self.output_pieces())

    def output_pieces(self):
        """The pieces of the output as they come; its end counts only if the run was done."""
        came = False
        while piece := os.read(self.run.stdout.fileno(), PIECE):
            came = True
            yield piece
        if self.run.wait() != 0:
            if came:
                raise OutputEnds
            raise CannotGoOn(NO_ANSWERS)
