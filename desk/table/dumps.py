"""A dump of a table's words: text in fours of hexadecimal digits, or bytes of either order.

In text a line has words, and may have the place of its first in front and a remark behind. An empty line parts two dumps. Places are
those of ./console's 'table', which leaves out rows of zeros, or those of od, hexdump and xxd, which count bytes and write '*' for rows
that repeat: the counting that fits every row of a dump is taken.
"""

import re
from collections import namedtuple

from desk.log.standard import CannotGoOn

MOST_BYTES = 16_000_000
REPEATED = "*"
WORD, WORDS = re.compile(r"[0-9A-Fa-f]{4}"), re.compile(r"(?:[0-9A-Fa-f]{4})+")
PLACE = re.compile(r" *((?:0x)?[0-9A-Fa-f]{1,8})(:?)( *)")
WORDS_APART = 2                                     # so many blanks stand between a place of four digits and the words
CONSOLE = (10, 1)                                       # as ./console counts: words, in decimal
COUNTINGS = (CONSOLE, (16, 1), (16, 2), (8, 2), (10, 2))  # the base that places are written in, and how many of them are a word

Dump = namedtuple("Dump", "line words")             # the line it begins in, from 1, or None of bytes; its words
Row = namedtuple("Row", "line place words")         # of a text: its line, the place in front or None, and its words


def shown(piece):
    """A piece of a text as it can be printed, cut where it is long."""
    plain = "".join(letter if letter.isprintable() else "?" for letter in piece)
    return plain if len(plain) <= 20 else plain[:17] + "..."


# ---- one row

def words_in(text, line, column):
    """The words of a row, up to a remark: behind '#', or two blanks further on, where something stands that isn't words."""
    found, begin, text = [], 0, text.split("#")[0].rstrip()
    while begin < len(text):
        blanks = len(text) - begin - len(text[begin:].lstrip())
        piece = text[begin + blanks:].split()[0]
        if not WORDS.fullmatch(piece):
            if found and blanks >= WORDS_APART:
                return found
            raise CannotGoOn(f"line {line}, column {column + begin + blanks}: '{shown(piece)}' is no word; a word is four hexadecimal digits.")
        found += [int(word, 16) for word in WORD.findall(piece)]
        begin += blanks + len(piece)
    return found


def place_in(text):
    """The place in front of a row, as it is written, and how many letters it takes; None where there is none. Digits in fours are a place
    only with a colon behind them; four of them with two blanks too."""
    place = PLACE.match(text)
    behind = text[place.end():] if place else ""
    if place is None or behind and not place[2] and not place[3]:
        return None, 0  # no digits, or they run on into something else
    is_apart = place[2] or len(place[1]) == 4 and len(place[3]) >= WORDS_APART and WORD.match(behind)
    if WORDS.fullmatch(place[1]) and not is_apart:
        return None, 0  # words
    return place[1], place.end()


def row_of(text, line):
    """A line of a dump, read."""
    if text.strip() == REPEATED:
        return Row(line, REPEATED, [])
    place, length = place_in(text)
    return Row(line, place, words_in(text[length:], line, length + 1))


# ---- rows to words

def refuse_mixed(rows):
    """Refuses rows of which some have a place in front and others none."""
    with_place, without = ([row.line for row in rows if (row.place is None) == is_none] for is_none in (False, True))
    if with_place and without:
        raise CannotGoOn(f"line {with_place[0]} has a place in front of its words, and line {without[0]} has none.")


def missing_before(row, count, counting):
    """How many words are missing before a row by its place; None where the place isn't written so, or lies before."""
    base, each = counting
    try:
        place, odd = divmod(int(row.place, 16 if row.place.startswith("0x") else base), each)
    except ValueError:
        return None
    return None if odd or not count <= place <= MOST_BYTES else place - count


def counted(rows, counting, leaves_out=False):
    """The words of rows by one way of counting, and None; or those up to the first row that doesn't fit, and that row. Rows may be
    missing behind '*', which repeat the one before; and rows of zeros, where such are left out."""
    words, last, is_repeated = [], [], False
    for row in rows:
        if row.place == REPEATED:
            is_repeated = True
            continue
        missing = 0 if row.place is None else missing_before(row, len(words), counting)
        may_miss = last and (is_repeated or leaves_out)
        if missing is None or missing and (not may_miss or missing % len(last)):
            return words, row
        words += (last if is_repeated else [0] * len(last)) * (missing // len(last)) if missing else []
        words += row.words
        last, is_repeated = row.words, False
    return words, rows[-1] if is_repeated else None


def words_of(rows):
    """The words of one dump's rows, by the first counting that fits; only where none does, rows may be left out."""
    refuse_mixed(rows)
    ways = [*(counted(rows, counting) for counting in COUNTINGS), counted(rows, CONSOLE, leaves_out=True)]
    for words, misfit in ways:
        if misfit is None:
            return words
    words, misfit = max(ways, key=lambda way: way[1].line)
    if misfit.place == REPEATED:
        raise CannotGoOn(f"line {misfit.line} says that rows repeat, and none behind it says how many.")
    raise CannotGoOn(f"line {misfit.line} begins with the place {misfit.place}, and {len(words)} words stand before it.")


# ---- files

def text_dumps(text):
    """The dumps of a text."""
    dumps, rows = [], []
    for line, raw in enumerate([*text.split("\n"), ""], 1):
        if raw.strip():
            if not raw.lstrip().startswith("#"):
                rows.append(row_of(raw.replace("\t", " ").rstrip(), line))
        elif rows:
            dumps.append(Dump(rows[0].line, words_of(rows)))
            rows = []
    return [dump for dump in dumps if dump.words]


def bytes_dump(data, order):
    """The one dump of a file of bytes."""
    if len(data) % 2:
        raise CannotGoOn(f"it has {len(data):,} bytes, an odd number, and a word has two.")
    return [Dump(None, [int.from_bytes(data[i:i + 2], order) for i in range(0, len(data), 2)])] if data else []


def dumps_in(data, order, name):
    """The dumps of a file, named as it is told; the order of its bytes is None of a text."""
    if len(data) > MOST_BYTES:
        raise CannotGoOn(f"{name} has more than {MOST_BYTES:,} bytes, and the largest table has 3,856.")
    try:
        if order is None and b"\0" in data:
            raise CannotGoOn("it is no text; --little or --big says in which order the bytes of its words stand.")
        dumps = text_dumps(data.decode("utf-8-sig", "replace")) if order is None else bytes_dump(data, order)
    except CannotGoOn as trouble:
        raise CannotGoOn(f"{name} is no dump: {trouble}") from trouble
    if not dumps:
        raise CannotGoOn(f"{name} has no words.")
    return dumps
