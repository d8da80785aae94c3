"""A mistake in a line of words: where it is, what was expected there, and which word is nearest to what stands there."""

import sys

MOST_SHOWN = 24          # so many characters of a word are shown
WIDE, BEFORE = 76, 60    # so much of a line is shown, and so much of it before the mistake at most


class Mistake(Exception):
    """A sentence about a column of a line; the line's place comes to it where lines are counted."""

    def __init__(self, column, sentence):
        super().__init__(sentence)
        self.column, self.sentence, self.place = column, sentence, None

    def told(self):
        """The mistake with where it is."""
        where = f"column {self.column}" if self.place is None else f"line {self.place}, column {self.column}"
        return f"{where}: {self.sentence}"


def printable(text):
    """Some text as it may be printed anywhere: what can't be is a question mark, and as wide."""
    encoding = sys.getfilesystemencoding()
    plain = "".join(letter if letter.isprintable() else "?" for letter in text)
    return plain.encode(encoding, "replace").decode(encoding)


def shown(text):
    """A word as it may be printed; of a long one its beginning."""
    return printable(text if len(text) <= MOST_SHOWN else text[:MOST_SHOWN] + "..")


def pointed(line, column):
    """A line, and below it a mark under the column; of a long line the part around it."""
    begin = max(0, column - BEFORE)
    piece = printable(line[begin:begin + WIDE].rstrip().replace("\t", " "))
    return f"    {piece}\n    {' ' * (column - 1 - begin)}^"


def distance(one, two):
    """How many letters have to be put in, taken out, changed or swapped with their neighbour to make one word of the other."""
    rows = [list(range(len(two) + 1))]
    for i, letter in enumerate(one, 1):
        row = [i]
        for j, other in enumerate(two, 1):
            steps = min(rows[-1][j] + 1, row[-1] + 1, rows[-1][j - 1] + (letter != other))
            if i > 1 and j > 1 and letter == two[j - 2] and one[i - 2] == other:
                steps = min(steps, rows[-2][j - 2] + 1)
            row.append(steps)
        rows.append(row)
    return rows[-1][-1]


def nearest(word, choices):
    """The choice that is nearest to a word, the first of several; None where none is near."""
    if len(word) > MOST_SHOWN:
        return None
    found = [(distance(word.casefold(), choice.casefold()), place, choice) for place, choice in enumerate(choices)]
    steps, _, choice = min(found, default=(1, 0, None))
    return choice if choice and steps <= max(1, min(len(word), len(choice)) // 3) else None


def listed(choices):
    """Some choices as a person lists them."""
    *most, last = choices
    return f"{', '.join(most)} or {last}" if most else last


def expected(found, column, wanted, choices=()):
    """The mistake of a word that isn't what was expected; the choices are the words that could stand there."""
    near = nearest(found, choices) if found else None
    what = f"'{shown(found)}'" if found else "the end of the line"
    return Mistake(column, f"expected {wanted}, and found {what}{f'; the nearest word is {near}' if near else ''}.")
