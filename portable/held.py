"""What locals hold and no line has written down yet: a value that is read once may stand where it is read.

Such a value waits here from its statement to the one that reads it. It is written to its variable first (`flush`) when something comes
between that could change it: a variable it reads is set, memory is written, or a function is called; and wherever the way parts or
joins. Two that read memory or call functions never wait where one of them calls, so C's order among operands makes no difference.
"""
from . import liveness, values
from .layout import Line
from .values import Array, Slice, Value


class Held:
    """The values that wait, by local, in the order of their statements; `nodes` is where lines go."""

    def __init__(self, operands, function, parameters, signatures):
        self.operands, self.function, self.parameters, self.signatures = operands, function, parameters, signatures
        self.waiting, self.aliases, self.nodes = {}, {}, []
        self.settings = {}
        for statement in liveness.every(function.body):
            for local in liveness.sets(statement):
                self.settings[local] = self.settings.get(local, 0) + 1
        self.changed = liveness.changed(function)
        arrays = {i for i in function.slots if function.locals[i][0] == 'array'}
        self.fixed = {operands.names[i] for i in [*parameters, *arrays] if i in arrays or i not in {*self.settings, *self.changed}}
        self.fixed |= {name + '_count' for name in self.fixed} | {operands.names[i] + '[0]' for i in operands.handed}

    def variables(self, local):
        """The C names that a local is written to."""
        name = self.operands.names[local]
        return {name, name + '_count'} if self.function.locals[local][0] == 'slice' else {name}

    def get(self, local):
        """What a local holds, for a statement that has been made ready."""
        if local in self.aliases:
            return self.aliases[local]
        if local in self.waiting:
            return self.waiting[local]
        return self.operands.variable(local)

    def ready(self, statement):
        """Writes down what this statement can't take over: what is read twice, or wanted later, or too long to stand inside."""
        reads = liveness.reads(statement)
        later = statement.wanted_after - liveness.sets(statement)
        for local in dict.fromkeys(reads):
            value = self.waiting.get(local)
            if value is None or value.plain():
                continue
            if reads.count(local) > 1 or local in later or not self.fits(statement, local, value):
                self.flush(local)

    def fits(self, statement, local, value):
        """Whether the statement may take the value over: a field is taken of a named place alone, and a long text stands alone."""
        if isinstance(value, Value):
            if local in self.whole(statement, lambda callee: callee.pointed) and not values.stands(value):
                return False
            if value.effect == values.CALLS and local in self.whole(statement, lambda callee: callee.left_out()):
                return False
            steps = [o[1][1] for o in self.places(statement) if o[1][0] == local]
            if any(steps) and (value.level < values.PRIMARY or value.effect == values.CALLS):
                return False
            if self.fills(statement, value) or value.effect == values.CALLS and self.looks(statement, local):
                return False
            if value.alone and statement.kind == 'assign' and statement.parts[1][0] == 'binary':
                return False
            if statement.kind == 'switch' and value.effect == values.CALLS:
                return False
            alone = statement.kind == 'return' or statement.kind == 'assign' and statement.parts[1][0] == 'use'
            return alone or value.scaled is not None or '\n' not in value.text and len(value.text) <= values.LONGEST
        return True

    def whole(self, statement, which):
        """The locals that a call hands over for those parameters of its function."""
        callee = self.signatures.get(statement.parts[0]) if statement.kind == 'call' else None
        wanted = which(callee) if hasattr(callee, 'pointed') else ()
        return [o[1][0] for i, o in enumerate(statement.parts[1], 1) if i in wanted and o[0] == 'place' and not o[1][1]] if wanted else []

    def looks(self, statement, local):
        """Whether a statement reads memory beside what a local holds: a call is made before that."""
        others = [o[1] for o in self.places(statement) if o[1][0] != local]
        return any(other in self.function.slots or 'deref' in dict(steps) for other, steps in others)

    def fills(self, statement, value):
        """Whether a statement gives an array its elements, one by one, and may overwrite what they read meanwhile."""
        if statement.kind != 'assign' or statement.parts[1][0] != 'aggregate' or self.operands.kind(statement.parts[0])[0] != 'array':
            return False
        local, steps = statement.parts[0]
        lent = local in self.parameters and len(steps) == 1
        return bool(value.arrays) and (not lent or self.operands.names[local] in value.arrays)

    @staticmethod
    def places(statement):
        if statement.kind == 'assign':
            found = liveness.operands_of(statement.parts[1])
        else:
            tested = [statement.parts[:1]]
            found = {'call': statement.parts[1:2], 'if': tested, 'switch': tested}.get(statement.kind, [[]])[0]
        return [o for o in found if o[0] == 'place']

    def take(self, statement):
        """The values that the statement has taken over wait no more."""
        for local in liveness.reads(statement):
            if local in self.waiting and local not in statement.wanted_after - liveness.sets(statement):
                del self.waiting[local]

    def hold(self, local, value):
        """The local holds this value from here on."""
        once = self.settings.get(local) == 1 and local not in {*self.parameters, *self.operands.lent, *self.changed}
        if once and value.plain() and value.names <= self.fixed:
            self.aliases[local] = value
            return
        self.give_up(local)
        self.flush_if(lambda other: other.names & self.variables(local))
        self.before(value.effect)
        self.waiting[local] = value

    def before(self, effect, writes=False):
        """What waits is written down before something with that effect; a call and a write may change what memory holds."""
        if effect == values.CALLS or writes:
            self.flush_if(lambda other: other.effect >= values.READS)
        elif effect == values.READS:
            self.flush_if(lambda other: other.effect == values.CALLS)

    def flush_if(self, wanted):
        for local in [other for other, value in self.waiting.items() if wanted(value)]:
            if local in self.waiting:
                self.flush(local)

    def give_up(self, local):
        """What the local held is wanted no more; a call is made all the same."""
        value = self.waiting.pop(local, None)
        if value is not None and value.effect == values.CALLS:
            self.nodes.append(Line(value.text + ';'))

    def flush(self, local):
        value = self.waiting.pop(local)
        self.write(local, value)

    def write(self, local, value):
        """Writes a value to the local's variable."""
        self.flush_if(lambda other: other.names & self.variables(local))
        self.before(value.effect, writes=local in self.operands.lent)
        name = self.operands.names[local]
        if self.function.locals[local][0] == 'ptr':
            self.operands.point(local, value)
        if isinstance(value, Slice):
            if name in value.count.names:
                self.nodes.append(Line('%s_count = %s;' % (name, value.count.text), name + '_count'))
                self.nodes.append(Line('%s = %s;' % (name, value.pointer.text), name))
            else:
                self.nodes.append(Line('%s = %s;' % (name, value.pointer.text), name))
                self.nodes.append(Line('%s_count = %s;' % (name, value.count.text), name + '_count'))
        elif isinstance(value, Array):
            raise AssertionError('an array is written by its own statement')
        else:
            self.nodes.append(Line('%s = %s;' % (name, value.text), name))

    def own(self, local):
        """The local's variable has what the local holds, and what waits has been read from it: a part of it is about to be set."""
        if local in self.waiting:
            self.flush(local)
        self.flush_if(lambda other: other.names & self.variables(local))

    def settle(self, wanted):
        """Where the way parts or joins nothing waits: what is wanted is written down."""
        for local in list(self.waiting):
            if local in self.waiting:
                if local in wanted:
                    self.flush(local)
                else:
                    self.give_up(local)
