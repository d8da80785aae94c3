"""The operands of the language: how each is read from a line's pieces, what it is called, and what it comes to.

A reader is given the pieces from its operand on, one at least, and gives what they come to and how many they are; it raises a
Mistake. Numbers are decimal, 0 to 65535, whether a station has such a record or not, so that refusals can be tried.
"""

import re
from collections import namedtuple

from desk.console.mistakes import Mistake, expected
from desk.console.tokens import TEXT, WORD, encoded

MOST = 65535
NAME_BYTES, MESSAGE_BYTES, MESSAGE_WORDS, PARTS = 6, 8, 4, 6
HEX_WORD = re.compile(r"[0-9A-Fa-f]{4}").fullmatch
HEX_PAIR = re.compile(r"[0-9A-Fa-f]{2}").fullmatch

# A process that a line names: by its name or, where that is None, its number; and the column.
Reference = namedtuple("Reference", "name number column")

EXPECTED = {
    "NAME": "a name of one to five letters", "PRIORITY": "a priority, 1 to 255", "COUNT": "how many buffers it owns",
    "EDITION": "an edition, 0 or 1", "COUNTER": "a counter, 0 to 32767",
    "PROCESS": "a process, by name or number", "BUFFER": "a buffer's number", "DEVICE": "a device's number, 0 to 63",
    "DELAY": "a number of ticks", "TICKS": "a number of ticks", "SEMAPHORE": "a semaphore's number",
    "MESSAGE": "a text in quotes of at most eight bytes, or one to four words of four hexadecimal digits",
    "CALL": "a call of two hexadecimal digits", "PARTS": "one to six words of four hexadecimal digits: a, b and four words",
    "TEXT": "a text in quotes", "FILE": "the name of a file", "WORD": "a word of this language",
}


def is_number(token):
    """Whether a piece is written as a number."""
    return token.kind == WORD and token.said.isascii() and token.said.isdigit()


def said(token):
    """A piece as it stood, near enough to be shown."""
    return f'"{token.said.decode("utf-8", "replace")}"' if token.kind == TEXT else token.said


def unexpected(token, operand):
    """The mistake of a piece that isn't the operand."""
    return expected(said(token), token.column, EXPECTED[operand])


def number(token, operand, least=0):
    """The number that a piece is."""
    if not is_number(token):
        raise unexpected(token, operand)
    digits = token.said.lstrip("0") or "0"
    if len(digits) > 5 or not least <= int(digits) <= MOST:
        raise Mistake(token.column, f"expected {EXPECTED[operand]}, and a number is from {least} to {MOST} here.")
    return int(digits)


def read_number(tokens, operand):
    """A number."""
    return number(tokens[0], operand), 1


def read_ticks(tokens, operand):
    """How many ticks, at least one."""
    return number(tokens[0], operand, 1), 1


def read_name(tokens, operand):
    """The bytes of a name; one that is a number, or has a sign of the language in it, stands in quotes."""
    token = tokens[0]
    if is_number(token):
        raise Mistake(token.column, f'a name that is a number would be taken for one; write it in quotes, as "{token.said[:NAME_BYTES]}".')
    if token.kind not in (WORD, TEXT):
        raise unexpected(token, operand)
    name = token.said if token.kind == TEXT else encoded(token.said)
    if len(name) > NAME_BYTES:
        raise Mistake(token.column, f"expected {EXPECTED[operand]}, and this one has {len(name)}; a line of the log has room for six.")
    return name, 1


def reference(token):
    """The process that a piece names."""
    if is_number(token):
        return Reference(None, number(token, "PROCESS"), token.column)
    if token.kind not in (WORD, TEXT):
        raise unexpected(token, "PROCESS")
    return Reference(token.said if token.kind == TEXT else encoded(token.said), None, token.column)


def read_process(tokens, _):
    """A process."""
    return reference(tokens[0]), 1


def words_from(tokens, operand, most):
    """The words of four digits that the pieces are, filled up with zeros to the most there may be."""
    words = []
    for token in tokens[:most]:
        if token.kind != WORD or not HEX_WORD(token.said):
            raise unexpected(token, operand)
        words.append(int(token.said, 16))
    return (*words, *[0] * (most - len(words))), len(words)


def read_message(tokens, operand):
    """The four words of a message or an answer."""
    token = tokens[0]
    if token.kind != TEXT:
        return words_from(tokens, operand, MESSAGE_WORDS)
    if len(token.said) > MESSAGE_BYTES:
        raise Mistake(token.column, f"a message has eight bytes, and this text has {len(token.said)}.")
    filled = token.said.ljust(MESSAGE_BYTES, b"\0")
    return tuple(int.from_bytes(filled[i:i + 2], "big") for i in range(0, MESSAGE_BYTES, 2)), 1


def read_call(tokens, operand):
    """The number of a call."""
    token = tokens[0]
    if token.kind != WORD or not HEX_PAIR(token.said):
        raise unexpected(token, operand)
    return int(token.said, 16), 1


def read_parts(tokens, operand):
    """The six words behind a call's number."""
    return words_from(tokens, operand, PARTS)


def read_text(tokens, operand):
    """A line of a log, which can't hold a line end."""
    token = tokens[0]
    if token.kind != TEXT:
        raise unexpected(token, operand)
    if b"\n" in token.said:
        raise Mistake(token.column, r"a line can't have a line end, \x0A, inside.")
    return token.said, 1


def read_file(tokens, operand):
    """The name of a file; one with blanks stands in quotes."""
    token = tokens[0]
    if token.kind not in (WORD, TEXT):
        raise unexpected(token, operand)
    name = token.said if token.kind == TEXT else encoded(token.said)
    if not name or b"\0" in name:
        raise Mistake(token.column, "a file's name has a letter at least, and no zero byte.")
    return name, 1


def read_word(tokens, operand):
    """A word, whichever; whether there is help for it is seen later."""
    if tokens[0].kind != WORD:
        raise unexpected(tokens[0], operand)
    return tokens[0], 1


READERS = {
    "NAME": read_name, "PROCESS": read_process, "MESSAGE": read_message, "CALL": read_call, "PARTS": read_parts,
    "TICKS": read_ticks, "TEXT": read_text, "FILE": read_file, "WORD": read_word,
    **dict.fromkeys(("PRIORITY", "COUNT", "EDITION", "COUNTER", "BUFFER", "DEVICE", "DELAY", "SEMAPHORE"), read_number),
}
