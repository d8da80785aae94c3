"""Places, operands and values of the MIR as C expressions. What a local holds may stand where it is read (see body.py); here it is only
asked for.
"""
from . import liveness, values
from .term import Unknown
from .values import Array, Pointer, Slice, Value


def lent(function):
    """The locals in memory, but for arrays, whose address is taken."""
    return {s.parts[1][1][0] for s in liveness.every(function.body) if s.kind == 'assign' and s.parts[1][0] == 'address'
            and s.parts[1][1][0] in function.slots and function.locals[s.parts[1][1][0]][0] != 'array'}


class Operands:
    """`held(local)` gives what a local holds, as an expression; `names` are the C names of the locals."""

    def __init__(self, function, types, arithmetic):
        self.function, self.types, self.arithmetic = function, types, arithmetic
        self.names, self.lent, self.pointers, self.handed = {}, lent(function), {}, ()

    def variable(self, local):
        """The local as the C variable, or the two variables, that it is; one that is lent is memory."""
        kind, name = self.function.locals[local], self.names[local]
        if kind[0] == 'ptr':
            if local not in self.pointers:
                raise Unknown("'%s' keeps a pointer whose type the MIR doesn't say." % self.function.name)
            kind = self.pointers[local]
        if local in self.handed:
            return Value(name + '[0]', names=[name, name + '[0]'])
        return self.shaped(Value(name, names=[name], effect=values.READS if local in self.lent else values.PURE), kind)

    def point(self, local, pointer):
        """A raw pointer's variable has the type of the pointer that is put there, and of no other."""
        kind = 'ref', pointer.changes, pointer.element
        if self.pointers.setdefault(local, kind) != kind:
            raise Unknown("'%s' keeps pointers of two types in one variable." % self.function.name)

    def shaped(self, value, kind):
        """What stands in a variable, or in a field, of that type and by that text."""
        if self.types.nothing(kind):
            return Value('', literal='')
        if kind[0] == 'slice':
            own = [value.text + '_count'] if value.text in value.names else value.names
            count = Value(value.text + '_count', names=own, effect=value.effect)
            return Slice(Pointer(value.text, kind[2], names=value.names, effect=value.effect, changes=kind[1]), count)
        if kind[0] == 'ref':
            return Pointer(value.text, self.types.element(kind[2]), names=value.names, effect=value.effect, changes=kind[1])
        if kind[0] == 'array':
            return Array(Pointer(value.text, kind[1], names=value.names))
        return value

    def kind(self, place):
        """The type of what stands at a place."""
        kind = self.function.locals[place[0]]
        for step, what in place[1]:
            if step == 'deref':
                kind = what
            elif kind[0] == 'slice':
                kind = ('ref', kind[1], kind[2]) if what == 0 else ('int', 64)
            else:
                kind = (self.types.field(kind, what) if step == 'field' else self.types.variant_field(kind, *what))[1]
        return kind

    def place(self, place, held):
        """What stands at a place, and its type."""
        local, steps = place
        value, kind = held(local), self.function.locals[local]
        for step, what in steps:
            if step == 'deref':
                value, kind = self.pointed(value, what), what
            elif step == 'field' and kind[0] == 'slice':
                value, kind = (value.pointer, ('ref', kind[1], kind[2])) if what == 0 else (value.count, ('int', 64))
            elif kind[0] == 'named':
                text, of = self.types.field(kind, what) if step == 'field' else self.types.variant_field(kind, *what)
                value = self.shaped(self.part(value, text), of)
                if step == 'variant' and what[1] == 0:
                    value.tags = kind
                kind = of
            else:
                raise Unknown("'%s' takes a field of a value that has none." % self.function.name)
        return value, kind

    def pointed(self, pointer, kind):
        if self.types.nothing(kind):
            return Value('', literal='')
        if not isinstance(pointer, Pointer) or pointer.element != self.types.element(kind):
            raise Unknown("'%s' reads a pointer as another type than it was made for." % self.function.name)
        if kind[0] == 'array':
            return Array(pointer, names=pointer.names, effect=max(values.READS, pointer.effect))
        return self.shaped(values.subscript(pointer), kind)

    @staticmethod
    def part(value, field):
        """A structure's field; of one behind a pointer by an arrow."""
        text = value.at(values.PRIMARY)
        base = text[:-3] + '->' if text.endswith('[0]') else text + '.'
        part = Value(base + field, values.PRIMARY, value.names, value.effect)
        part.arrays = value.arrays
        return part

    def operand(self, operand, held):
        if operand[0] == 'int':
            return values.number(operand[2], operand[1]), ('int', operand[1])
        if operand[0] == 'bool':
            return Value(operand[1], literal=operand[1]), ('bool',)
        if operand[0] == 'size':
            return values.number(self.types.size(operand[1]), 64), ('int', 64)
        if operand[0] == 'unit':
            return Value('', literal=''), ('unit',)
        return self.place(operand[1], held)

    def address(self, place, held):
        """The address of a place: of what a pointer points at, that pointer; of an array, its first element's; of a variable that the MIR has
        in memory, or of a part of such a one or of what a pointer points at, its own."""
        local, steps = place
        if steps and steps[-1][0] == 'deref':
            return self.place((local, steps[:-1]), held)[0]
        value, kind = self.place(place, held)
        if isinstance(value, Array) or self.types.nothing(kind):
            return value.pointer if isinstance(value, Array) else value
        through = max((i for i, (step, _) in enumerate(steps) if step == 'deref'), default=None)
        inner = None if through is None else self.place((local, steps[:through]), held)[0]
        named = isinstance(value, Value) or isinstance(value, Pointer) and value.index is None and not value.base.startswith('&')
        if not named or through is None and local not in self.function.slots:
            raise Unknown("'%s' takes the address of what is neither in memory nor behind a pointer." % self.function.name)
        return values.address(value, kind, inner)

    def value(self, value, target, held):
        """A value of the MIR for a place of that type."""
        kind = value[0]
        if kind == 'use':
            return self.operand(value[1], held)[0]
        if kind == 'address':
            return self.address(value[1], held)
        if kind == 'aggregate':
            return self.aggregate([self.operand(o, held)[0] for o in value[1]], target)
        if kind == 'repeat':
            element = self.operand(value[1], held)[0]
            return Array(None, ('repeat', element, value[2]), element.names, element.effect)
        if kind == 'not':
            operand, of = self.operand(value[1], held)
            if of != ('bool',):
                raise Unknown("'%s' turns over the bits of a number." % self.function.name)
            return values.negation(operand)
        if kind == 'cast':
            operand, of = self.operand(value[3], held)
            return self.arithmetic.cast(operand, of, value[1], value[2])
        (left, of), (right, _) = self.operand(value[3], held), self.operand(value[4], held)
        if value[1] == 'offset':
            return self.arithmetic.offset(left, right, self.function.name)
        return self.arithmetic.binary(value[1], value[2], left, right, of, self.function.name)

    def aggregate(self, parts, target):
        if target[0] == 'slice':
            if not isinstance(parts[0], Pointer):
                raise Unknown("'%s' makes a slice of what is no pointer." % self.function.name)
            return Slice(parts[0], parts[1])
        names, effect, arrays = values.united(parts)
        if target[0] == 'array':
            made = Array(None, ('elements', parts), names, effect)
            made.arrays = arrays
            return made
        if target[0] != 'named':
            raise Unknown("'%s' makes a value of the type '%s' of parts." % (self.function.name, target[0]))
        if any(isinstance(part, Array) for part in parts):
            return values.Pieces(list(self.members(parts, target)))
        kind, rows = self.types.c(target), ['.%s%s = %s' % (name, end, text) for name, _, part in self.members(parts, target)
                                            for end, text in zip(('', '_count'), part.parts())]
        text = '(%s){ %s }' % (kind, ', '.join(rows))
        if len(text) > values.LONGEST:
            text = '(%s){\n    %s,\n}' % (kind, ',\n    '.join(row.replace('\n', '\n    ') for row in rows))
        made = Value(text, values.UNARY, names, effect)
        made.arrays = arrays
        return made

    def members(self, parts, target):
        """The members of a structure, with their types and values; an enum's first part is the tag, which says whose the others are."""
        if self.types.variants(target) is not None:
            k, parts = parts[0].literal, parts[1:]
            fields = self.types.variant(target, k)[1]
            yield 'tag', ('int', 8), Value(self.types.tag(target, k), literal=k)
        else:
            fields = [self.types.field(target, i) for i in range(len(self.types.fields(target)))]
        if len(parts) != len(fields):
            raise Unknown("'%s' makes a '%s' of another number of parts than it has." % (self.function.name, target[1]))
        yield from ((name, kind, part) for (name, kind), part in zip(fields, parts))
