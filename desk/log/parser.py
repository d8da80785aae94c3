"""The words of a command line, read in one way for every command of the desk."""

import argparse
import re
from functools import partial

from desk.log import standard
from desk.log.standard import CannotGoOn

PLAIN_WORDS = (  # of what the parser says
    (r"unrecognized arguments: (-\S*).*", r"there is no option '\1'"),
    (r"unrecognized arguments: .*", "one log at a time, please"),
    (r"argument (\S+): expected one argument", r"\1 wants something behind it"),
    (r"argument (--\S+): (.*)", r"\1: \2"),
)


class Parser(argparse.ArgumentParser):
    """Says what is wrong with the command line in one sentence, and its help as all else is said."""

    def __init__(self, command, about, exits, **more):
        self.command = command
        super().__init__(prog=command, description=about, epilog=exits, allow_abbrev=False,
                         formatter_class=partial(argparse.RawDescriptionHelpFormatter, width=79), **more)

    def error(self, message):
        for pattern, words in PLAIN_WORDS:
            message = re.sub(f"^{pattern}$", words, message)
        raise CannotGoOn(f"{message}; {self.command} --help says how it is used.")

    def print_help(self, file=None):
        standard.need_output()
        standard.say(self.format_help().rstrip("\n"))
        standard.say_all()


def number(word, least, most, what):
    """A number in a range; refuses any other word."""
    if not (word.isascii() and word.isdigit() and least <= int(word) <= most):
        raise argparse.ArgumentTypeError(f"{what} is a number from {least} to {most}")
    return int(word)
