"""The desk's own programs, in target/native: where they stand, and their building where that is needed, by desk/build."""

import os
import subprocess

from desk import HOME
from desk.log.standard import CannotGoOn


def place_of(program):
    """Where a program stands once it is built."""
    return os.path.join(HOME, "target", "native", program)


def build(program, command, *sentence):
    """Has a program built where that is needed. The builder says why it can't be, in the command's name; a sentence may be added."""
    words = [os.path.join(HOME, "desk", "build"), program, command]
    if subprocess.run(words, stdin=subprocess.DEVNULL, check=False).returncode != 0:
        raise CannotGoOn(*sentence)
