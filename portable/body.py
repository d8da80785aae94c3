"""A function's statements as lines of C."""
import re

from . import kit, liveness, values
from .constants import read_constant
from .control import Control
from .held import Held
from .layout import Group, Line, declare, written
from .straight import unread, written_out
from .operands import Operands
from .term import Unknown
from .values import Array, Pieces, Pointer, Slice, Value


def names(part, value):
    """Whether a value's text has that of a place in it."""
    return re.search(r'(?<!\w)%s(?!\w)' % re.escape(part.text), value.text) is not None


class Body(Control):
    """Translates one function. `signatures` has, by name, those of the functions that it calls."""

    def __init__(self, function, told, types, arithmetic, signatures):
        self.function, self.types, self.signatures = function, types, signatures
        self.operands = Operands(function, types, arithmetic)
        self.parameters = range(1, function.parameters + 1)
        self.lets = {function.parameters + 1 + i for i in told.lets} if told else set()
        self.operands.names, self.operands.handed = signatures[function.name].names, signatures[function.name].pointed
        self.parts_given = 0
        liveness.mark(function)
        self.held = Held(self.operands, function, self.parameters, signatures)
        self.statements(function.body, True)
        self.held.settle(())
        self.nodes = written_out(self.held.nodes)
        self.declare_all()

    def declare_all(self):
        for local, kind in enumerate(self.function.locals):
            name = self.operands.names[local]
            kind = self.operands.pointers.get(local, kind)
            if local in self.parameters or kind[0] == 'ptr' or self.types.nothing(kind) or local == 0 and kind[0] == 'array':
                continue
            if kind[0] == 'array':
                declare(self.nodes, name, self.types.c(kind[1]), '[%d]' % kind[2])
            elif kind[0] == 'slice':
                for part, of in ((name, self.types.c(('ref', kind[1], kind[2]))), (name + '_count', self.types.index)):
                    self.nodes = unread(self.nodes, part)
                    declare(self.nodes, part, of)
            else:
                self.nodes = unread(self.nodes, name)
                declare(self.nodes, name, self.types.c(kind))

    # Statements

    def statements(self, statements, last=False):
        for i, statement in enumerate(statements):
            getattr(self, 'do_' + statement.kind)(statement, last and i == len(statements) - 1)

    def inside(self, statements, last=False):
        """The lines of statements in braces."""
        outer, self.held.nodes = self.held.nodes, []
        self.statements(statements, last)
        self.held.settle(statements[-1].wanted_after if statements else ())
        found, self.held.nodes = self.held.nodes, outer
        return found

    def do_assign(self, statement, _):
        self.held.ready(statement)
        (local, steps), kind = statement.parts[0], self.function.locals[statement.parts[0][0]]
        if not steps:
            value = self.operands.value(statement.parts[1], kind, self.held.get)
            self.held.take(statement)
            if isinstance(value, Pieces):
                self.build(local, kind, value)
            elif local in statement.wanted_after or local in self.function.slots or value.effect == values.CALLS:
                self.keep(local, kind, value)
            else:
                self.held.give_up(local)
            return
        if local in self.held.changed:
            self.held.own(local)
        target, kind = self.operands.place(statement.parts[0], self.held.get)
        value = self.operands.value(statement.parts[1], kind, self.held.get)
        self.held.take(statement)
        if self.types.nothing(kind):
            return
        if isinstance(target, Array):
            self.fill(target.pointer, value, kind[2])
            return
        if isinstance(value, Pieces):
            value = self.built(kind, value)
        self.held.before(value.effect, writes=True)
        lines = ['%s = %s;' % (to, of) for to, of in zip(target.parts(), value.parts())]
        if isinstance(target, Slice) and names(target.pointer, value.count):
            lines.reverse()
            if names(target.count, value.pointer):
                raise Unknown("'%s' sets a slice to what reads both its parts." % self.function.name)
        self.held.nodes += map(Line, lines)

    def build(self, local, kind, value):
        """A local is made of pieces, some of them arrays: one by one, unless they are read from it."""
        if local in self.held.waiting:
            self.held.give_up(local)
        name = self.operands.names[local]
        if value.names & self.held.variables(local) or local in self.operands.lent:
            self.keep(local, kind, self.built(kind, value))
        else:
            self.held.flush_if(lambda other: other.names & self.held.variables(local))
            self.pieces(name, value)

    def built(self, kind, value):
        """A variable of its own, made of pieces."""
        self.parts_given += 1
        name = 'given%d' % self.parts_given
        self.held.nodes.append(Line('%s %s;' % (self.types.c(kind), name)))
        self.pieces(name, value)
        return Value(name, names=[name])

    def pieces(self, name, value):
        self.held.before(value.effect, writes=True)
        for field, kind, part in value.pieces:
            if isinstance(part, Array):
                self.fill(Pointer('%s.%s' % (name, field), kind[1]), part, kind[2])
            elif not self.types.nothing(kind):
                self.held.nodes += [Line('%s.%s%s = %s;' % (name, field, end, text)) for end, text in zip(('', '_count'), part.parts())]

    def keep(self, local, kind, value):
        """A local is set: by a line of its own if it has a name in the source or is an array, else the value waits."""
        if self.types.nothing(kind):
            return
        if isinstance(value, Array):
            if kind[0] == 'array' and local not in self.function.slots and value.effect == values.CALLS and local != 0:
                self.held.hold(local, value)
            else:
                self.fill(self.operands.variable(local).pointer, value)
            return
        self.held.hold(local, value)
        if (local in self.lets or local in self.function.slots) and local in self.held.waiting and not (isinstance(value, Slice) and value.plain()):
            self.held.flush(local)

    def fill(self, target, value, amount=None):
        """Gives an array's elements their values; `amount` is how many they are where no local is the array."""
        self.held.before(value.effect, writes=True)
        self.held.flush_if(lambda other: target.base in getattr(other, 'arrays', ()))
        if value.made and value.made[0] == 'call':
            name, arguments = value.made[1:]
            self.held.nodes.append(Line('%s(%s);' % (name, ', '.join(arguments + [target.text]))))
        elif value.made and value.made[0] == 'elements' and len(value.made[1]) <= 16:
            if target.base in value.arrays or target.base not in self.reachable() and value.arrays:
                raise Unknown("'%s' fills an array from elements that it may overwrite." % self.function.name)
            for i, element in enumerate(value.made[1]):
                self.held.nodes.append(Line('%s[%d] = %s;' % (target.base, i, element.text)))
        else:
            self.fill_by_loop(target, value, amount)

    def reachable(self):
        """The names of pointers that came from outside: no array of this function's own is behind them."""
        return {self.operands.names[i] for i in self.parameters}

    def fill_by_loop(self, target, value, amount):
        if value.made and value.made[0] == 'repeat':
            amount, text = value.made[2], value.made[1].text
        elif value.made:
            elements = value.made[1]
            if any(e.literal is None for e in elements):
                raise Unknown("'%s' has a long list of elements that are not all numbers." % self.function.name)
            amount, text = len(elements), 'elements[at]'
            rows = [', '.join(e.text for e in elements[i:i + 16]) for i in range(0, amount, 16)]
            self.held.nodes.append(Line('static const %s elements[%d] = {\n    %s,\n};' % (
                self.types.c(self.element_of(target)), amount, ',\n    '.join(rows))))
        else:
            amount, text = amount or self.length_of(target), values.subscript(values.moved(value.pointer, Value('at', names=['at']))).text
        head = 'for (%s at = 0; at < %s; at++)' % (self.types.index, values.number(amount, 64).text)
        self.held.nodes.append(Group((head, [Line('%s[at] = %s;' % (target.base, text))]), loop=True))

    @staticmethod
    def element_of(target):
        return target.element

    def length_of(self, target):
        for local, kind in enumerate(self.function.locals):
            if self.operands.names[local] == target.base:
                return (kind[2] if kind[0] == 'array' else kind[2][2])
        raise Unknown("'%s' copies an array of a length that isn't told." % self.function.name)

    def do_call(self, statement, _):
        self.held.ready(statement)
        name, arguments, (local, steps) = statement.parts
        if name in kit.NUMBERS and not steps:
            given = [self.operands.operand(o, self.held.get)[0] for o in arguments]
            self.held.take(statement)
            self.keep(local, self.function.locals[local], values.called(kit.NUMBERS[name], *given))
            return
        callee = self.signatures.get(name)
        if callee is None or steps:
            raise Unknown("'%s' calls '%s', which the MIR doesn't have before it." % (self.function.name, name))
        given = [self.operands.operand(o, self.held.get)[0] for o in arguments]
        self.held.take(statement)
        pointed = getattr(callee, 'pointed', ())
        parts = [[self.handed(value, self.operands.kind(o[1]))] if i in pointed else value.parts() for i, (value, o) in enumerate(zip(given, arguments), 1)]
        texts = callee.wanted([text for part in parts for text in part])
        names, _, arrays = values.united(given)
        kind = self.function.locals[local]
        text = '%s(%s)' % (callee.name, ', '.join(texts))
        if kind[0] == 'array':
            self.keep(local, kind, Array(None, ('call', callee.name, texts), names, values.CALLS))
        elif kind[0] == 'slice' and local in statement.wanted_after:
            self.keep(local, kind, self.given_slice(callee, text, kind))
        elif self.types.nothing(kind) or local not in statement.wanted_after and local not in self.function.slots:
            self.held.before(values.CALLS)
            self.held.nodes.append(Line(text + ';'))
        else:
            value = Value(text, values.PRIMARY, names, values.CALLS)
            value.arrays = arrays
            self.keep(local, kind, value)

    def handed(self, value, kind):
        """The pointer by which a structure is handed over: to where it stands, or to a copy where a call may change that."""
        if not values.stands(value):
            self.held.before(value.effect)
            self.parts_given += 1
            name = 'given%d' % self.parts_given
            self.held.nodes.append(Line('%s %s = %s;' % (self.types.c(kind), name, value.text)))
            return '&' + name
        return value.text[:-3] if value.text.endswith('[0]') else '&' + value.text

    def do_lend(self, statement, _):
        (local, steps), kind, constant = statement.parts
        if steps:
            raise Unknown("'%s' lends a constant to a part of a variable." % self.function.name)
        if local in statement.wanted_after:
            self.keep(local, self.function.locals[local], self.types.constants.pointer(kind, read_constant(constant)))

    def given_slice(self, callee, text, kind):
        """A slice that a call gives, kept in a structure of its own: its pointer and its count."""
        self.held.before(values.CALLS)
        self.parts_given += 1
        name = 'given%d' % self.parts_given
        self.held.nodes.append(Line('%s %s = %s;' % (callee.result, name, text)))
        return Slice(Pointer(name + '.at', kind[2], names=[name]), Value(name + '.count', names=[name]))

    def do_return(self, statement, last):
        self.held.ready(statement)
        kind = self.function.locals[0]
        value = self.held.get(0) if kind[0] != 'array' and not self.types.nothing(kind) else None
        self.held.take(statement)
        self.held.settle(())
        if value is not None:
            given = self.signatures[self.function.name].result
            if kind == ('int', 64) and given != self.types.index:
                value = values.cast(given, value)
            text = value.text
            if isinstance(value, Slice):
                text = '(%s){ .at = %s, .count = %s }' % (given, value.pointer.text, value.count.text)
            self.held.nodes.append(Line('return %s;' % text))
        elif not last:
            self.held.nodes.append(Line('return;'))

    def lines(self):
        return written(self.nodes)
