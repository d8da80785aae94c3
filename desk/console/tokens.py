r"""A line of words cut into its pieces, each with its column: words, texts in quotes, and the colon behind who calls.

A word runs up to a blank, a quote, a colon or '#', behind which a remark runs to the end of the line. In a text stand \" for a
quote, \\ for a stroke and \xHH for the byte HH hexadecimal. What isn't ASCII counts by the bytes of UTF-8; bytes of a file that
are no UTF-8 are kept as they are.
"""

import re
from collections import namedtuple

from desk.console.mistakes import Mistake

WORD, TEXT, COLON = "word", "text", "colon"

# A piece of a line: its kind; what it says, of a text its bytes; its column, from 1, and the column behind it.
Token = namedtuple("Token", "kind said column end")

PIECE = re.compile(r'(?P<blank>\s+)|(?P<remark>#.*)|(?P<colon>:)|(?P<text>")|(?P<word>[^\s"#:]+)', re.DOTALL)
IN_TEXT = re.compile(r'(?P<plain>[^"\\]+)|\\(?P<itself>["\\])|\\x(?P<byte>[0-9A-Fa-f]{2})|(?P<end>")')
ESCAPED = {ord('"'): '\\"', ord("\\"): "\\\\"}


def decoded(data):
    """The text of some bytes; those that are no UTF-8 are kept."""
    return data.decode("utf-8", "surrogateescape")


def encoded(text):
    """The bytes of a text, the kept ones too."""
    return text.encode("utf-8", "surrogateescape")


def text_from(line, begin):
    """The bytes of a text that begins behind the quote at this place, and the place behind its end."""
    gathered, place = b"", begin + 1
    while piece := IN_TEXT.match(line, place):
        place = piece.end()
        if piece["end"]:
            return gathered, place
        gathered += bytes.fromhex(piece["byte"]) if piece["byte"] else encoded(piece["itself"] or piece["plain"])
    if place < len(line):
        raise Mistake(place + 1, r'behind \ in a text stands a quote, another \, or x and two hexadecimal digits.')
    raise Mistake(begin + 1, "the text that begins here has no quote at its end.")


def cut(line):
    """The pieces of a line, without blanks and remark."""
    tokens, place = [], 0
    while place < len(line):
        piece = PIECE.match(line, place)
        column = place + 1
        place = piece.end()
        if piece["text"]:
            said, place = text_from(line, column - 1)
            tokens.append(Token(TEXT, said, column, place + 1))
        elif piece["colon"] or piece["word"]:
            tokens.append(Token(COLON if piece["colon"] else WORD, piece[0], column, place + 1))
    return tokens


def quoted(data):
    """Some bytes as a text that is cut into them again."""
    return '"' + "".join(ESCAPED.get(byte) or (chr(byte) if 0x20 <= byte <= 0x7E else f"\\x{byte:02X}") for byte in data) + '"'
