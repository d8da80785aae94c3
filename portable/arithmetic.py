"""Numbers: what the MIR's operations are in C, with C's promotions kept out of it.

All numbers are unsigned in C. Where the MIR means them signed, small functions turn the sign bit over or extend it, so that nothing
rests on what a compiler does with a number too large for a signed type.
"""
from . import values
from .term import Unknown
from .values import Pointer

FOLDED = {'add': lambda a, b: a + b, 'sub': lambda a, b: a - b, 'mul': lambda a, b: a * b}
WRAPPING = {'wrap_add': 'add', 'wrap_sub': 'sub', 'wrap_mul': 'mul'}  # C's own unsigned numbers wrap
CHECKED = {'add': 'index_sum', 'sub': 'index_difference', 'mul': 'index_product'}


class Arithmetic:
    """`checked`: sums, differences and products of the index type go by functions that test them."""

    def __init__(self, types, checked=False):
        self.types, self.checked = types, checked

    def cast(self, value, of, signed, width):
        kind = self.types.number(width)
        if of == ('bool',):
            return values.cast(kind, value)
        if of[0] != 'int':
            raise Unknown("the MIR casts a value of the type '%s'." % of[0])
        if of[1] == width:
            return value
        if of[1] < width and signed:
            return values.called('extended_%d_to_%d' % (of[1], width), value)
        return values.cast(kind, value)

    def offset(self, pointer, amount, name):
        """So many bytes on, as so many elements on: the MIR has multiplied by their size, or names a multiple of it."""
        if not isinstance(pointer, Pointer):
            raise Unknown("'%s' goes on from what is no pointer." % name)
        size = self.types.size(pointer.element)
        if amount.literal is not None and amount.literal % size == 0:
            return values.moved(pointer, values.number(amount.literal // size, 64))
        if size == 1:
            return values.moved(pointer, amount)
        if amount.scaled is None or amount.scaled[1] != size:
            raise Unknown("'%s' goes on by bytes that are not so many elements." % name)
        return values.moved(pointer, amount.scaled[0])

    def binary(self, operation, signed, left, right, of, name):
        if of == ('bool',):
            if operation in ('and', 'or'):
                return values.both(operation, left, right)
            if operation in ('eq', 'ne'):
                return values.test(operation, left, right)
        if of[0] != 'int':
            raise Unknown("'%s' has the operation '%s' on values of the type '%s'." % (name, operation, of[0]))
        width = of[1]
        kind = self.types.number(width)
        if operation in WRAPPING and kind == 'monitor_index':
            raise Unknown("'%s' wraps a number of 64 bits, and an index may have 32." % name)
        wraps, operation = operation in WRAPPING, WRAPPING.get(operation, operation)
        if operation in values.TESTS:
            if signed:
                return values.called('signed_less_%d' % width, left, right)
            return values.test(operation, left, right)
        if left.literal is not None and right.literal is not None and operation in FOLDED:
            return values.number(FOLDED[operation](left.literal, right.literal) % (1 << width), width)
        made = self.number(operation, left, right, width, kind)
        if operation == 'mul' and right.literal is not None and not wraps:
            made.scaled = (left, right.literal)
        return made

    def number(self, operation, left, right, width, kind):
        """A number of that width. What C does in a wider type is cut to it; a product is never one of signed numbers."""
        if self.checked and kind == 'monitor_index' and operation in CHECKED:
            return values.made('%s(%s, %s)' % (CHECKED[operation], left.text, right.text), values.PRIMARY, left, right)
        if operation in ('and', 'or'):
            text = '%s %s %s' % (left.at(values.UNARY), '&' if operation == 'and' else '|', right.at(values.UNARY))
            return values.made('(%s)(%s)' % (kind, text), values.UNARY, left, right)
        sign, level = values.SIGNS[operation]
        if width < 32 and operation == 'mul':
            left = values.cast('unsigned', left)
        text = '%s %s %s' % (left.at(level), sign, right.at(level + 1))
        if width >= 32:
            return values.made(text, level, left, right)
        made = values.made('(%s)(%s)' % (kind, text), values.UNARY, left, right)
        made.alone = operation == 'sub' and left.literal == (1 << width) - 1  # GCC takes it for a complement, and warns of its test
        return made
