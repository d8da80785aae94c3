"""C expressions: their text, how tightly it binds, which variables it reads, and what evaluating it does.

Effects: PURE reads variables alone, READS reads memory, CALLS calls a function. A pointer is an array and an index into it, so
that no text goes by bytes; a slice is a pointer and a count.
"""
import re

from .term import Unknown

PURE, READS, CALLS = 0, 1, 2
ANY, OR, AND, EQUAL, LESS, SUM, PRODUCT, UNARY, PRIMARY = 0, 1, 2, 3, 4, 5, 6, 7, 8
SIGNS = {'add': ('+', SUM), 'sub': ('-', SUM), 'mul': ('*', PRODUCT), 'div': ('/', PRODUCT), 'rem': ('%', PRODUCT)}
TESTS = {'eq': ('==', '!=', EQUAL), 'ne': ('!=', '==', EQUAL), 'lt': ('<', '>=', LESS), 'le': ('<=', '>', LESS)}
TURNED = {'==': '==', '!=': '!=', '<': '>', '>': '<', '<=': '>=', '>=': '<='}
LONGEST = 96  # a longer text is not put inside another


class Value:
    """An expression with one text."""

    def __init__(self, text, level=PRIMARY, names=(), effect=PURE, literal=None):
        self.text, self.level, self.names, self.effect, self.literal = text, level, frozenset(names), effect, literal
        self.opposite, self.scaled, self.arrays, self.alone = None, None, frozenset(), False
        self.tags = None  # of an enum's tag: the enum

    def at(self, level):
        """The text where something of that level is wanted."""
        return self.text if self.level >= level else '(%s)' % self.text

    def parts(self):
        return [self.text] if self.text else []

    def plain(self):
        """Whether the text is a name or a number, which may stand in several places."""
        return self.effect == PURE and (self.literal is not None or self.text in self.names)


class Pointer:
    """The place `index` (none: 0) of the array or pointer called `base`; `changes`: what it points at may be changed by it."""

    def __init__(self, base, element, index=None, names=(), effect=PURE, changes=True):
        self.base, self.element, self.index, self.effect, self.changes = base, element, index, effect, changes
        self.names = frozenset(names)

    @property
    def text(self):
        return self.base if self.index is None else '%s + %s' % (self.base, self.index.at(SUM + 1))

    level = SUM

    def parts(self):
        return [self.text]

    def plain(self):
        return self.index is None and self.effect == PURE


class Slice:
    """A pointer and a count."""

    def __init__(self, pointer, count):
        self.pointer, self.count = pointer, count
        self.names, self.effect = pointer.names | count.names, max(pointer.effect, count.effect)

    @property
    def text(self):
        return '%s, %s' % (self.pointer.text, self.count.text)

    def parts(self):
        return [self.pointer.text, self.count.text]

    def plain(self):
        return self.pointer.plain() and self.count.plain()


class Array:
    """Elements that stand in memory, named by a pointer to the first; or those that a call or a list is about to give (`made`)."""

    def __init__(self, pointer, made=None, names=(), effect=READS):
        self.pointer, self.made, self.effect = pointer, made, effect
        self.names = frozenset(names) | (pointer.names if pointer else frozenset())
        self.text = pointer.text if pointer else ''

    @staticmethod
    def plain():
        return False

    @staticmethod
    def parts():
        raise Unknown('the MIR hands an array over as a value.')


class Pieces:
    """A structure some of whose members are arrays, which C can't set together: (text, type, part) of each."""

    def __init__(self, pieces):
        self.pieces = pieces
        self.names, self.effect, self.arrays = united(part for _, _, part in pieces)


def united(parts):
    """The names that the parts read, the strongest of their effects, and the arrays they read."""
    parts = list(parts)
    names = frozenset().union(*[p.names for p in parts]) if parts else frozenset()
    arrays = frozenset().union(*[getattr(p, 'arrays', frozenset()) for p in parts]) if parts else frozenset()
    return names, max([p.effect for p in parts], default=PURE), arrays


def made(text, level, *parts):
    names, effect, arrays = united(parts)
    value = Value(text, level, names, effect)
    value.arrays = arrays
    return value


def number(amount, width):
    """A literal. One above 32767 is unsigned, so that it has its value where int has 16 bits."""
    text = str(amount) if amount < 1 << 15 else '%du' % amount if amount < 1 << 32 else 'UINT64_C(%d)' % amount
    if amount >= 1 << width:
        raise Unknown('the MIR has the number %d in %d bits.' % (amount, width))
    return Value(text, literal=amount)


def test(name, left, right):
    sign, other, level = TESTS[name]
    if left.literal is not None and right.literal is None:  # a number stands right
        left, right, sign, other = right, left, TURNED[sign], TURNED[other]
    value = made('%s %s %s' % (left.at(level + 1), sign, right.at(level + 1)), level, left, right)
    value.opposite = made('%s %s %s' % (left.at(level + 1), other, right.at(level + 1)), level, left, right)
    value.opposite.opposite = value
    return value


def negation(value):
    return value.opposite or made('!' + value.at(UNARY), UNARY, value)


def both(name, left, right):
    """Two truths joined. C may leave out the right one, so a call stands left; at most one side calls, and then the other reads no memory."""
    return joined(name, *((right, left) if right.effect == CALLS else (left, right)))


def lazily(name, left, right):
    """Two truths joined, of which the right one is looked at where the left one leaves it open."""
    value = joined(name, left, right)
    if left.opposite and right.opposite:
        value.opposite = joined('or' if name == 'and' else 'and', left.opposite, right.opposite)
        value.opposite.opposite = value
    return value


def joined(name, left, right):
    sign, level = ('&&', AND) if name == 'and' else ('||', OR)
    # inside the other sign brackets are put, which compilers ask for
    sides = [side.text if side.level == level or side.level >= EQUAL else '(%s)' % side.text for side in (left, right)]
    return made('%s %s %s' % (sides[0], sign, sides[1]), level, left, right)


def cast(kind, value):
    return value if value.text.startswith('(%s)' % kind) and value.level == UNARY else made('(%s)%s' % (kind, value.at(UNARY)), UNARY, value)


def called(name, *parts):
    """A call of one of the few functions that text.py has for what C has no sign for."""
    return made('%s(%s)' % (name, ', '.join(part.text for part in parts)), PRIMARY, *parts)


def address(value, kind, inner=None):
    """The address of what has that text: a variable, or a part of one or of what the pointer `inner` points at."""
    if inner is None:
        return Pointer('&' + value.text, kind)
    return Pointer('&' + value.text, kind, names=inner.names, effect=inner.effect, changes=inner.changes)


def stands(value):
    """Whether a structure has a place that nobody changes as long as a call goes on: it is a variable, a part of one, or made for that call."""
    return value.text.startswith('(struct ') or value.effect == PURE and re.fullmatch(r'\w+(\[0\]|(->\w+)?(\.\w+)*)', value.text) is not None


def subscript(pointer):
    """The element that a pointer points at."""
    if pointer.base.startswith('&') and pointer.index is None:
        value = Value(pointer.base[1:], PRIMARY, pointer.names, max(READS, pointer.effect))
        value.arrays = frozenset([pointer.base])
        return value
    text = '%s[%s]' % (pointer.base, pointer.index.text if pointer.index else '0')
    value = Value(text, PRIMARY, pointer.names, max(READS, pointer.effect))
    value.arrays = frozenset([pointer.base])
    return value


def moved(pointer, index):
    """The pointer, so many elements on."""
    total = index if pointer.index is None else made('%s + %s' % (pointer.index.at(SUM), index.at(SUM + 1)), SUM, pointer.index, index)
    if index.literal == 0:
        total = pointer.index
    elif pointer.base.startswith('&'):
        raise Unknown('the MIR goes on from what is no element.')
    return Pointer(pointer.base, pointer.element, total, pointer.names | index.names, max(pointer.effect, index.effect), pointer.changes)
