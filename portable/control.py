"""Tests, loops and what leaves them, as lines of C."""
from . import liveness, values
from .layout import Choice, Group, Label, Leave, Line
from .straight import needed
from .term import Unknown


def joins(statement):
    """Whether a statement sets a truth anew where it is true, or where it isn't, and does nothing else."""
    if statement.kind != 'if' or statement.parts[0][0] != 'place' or bool(statement.parts[1]) == bool(statement.parts[2]):
        return False
    body = statement.parts[1] or statement.parts[2]
    if body[-1].kind == 'if':
        return joins(body[-1]) and body[-1].parts[0] == statement.parts[0]
    return body[-1].kind in ('assign', 'call') and liveness.sets(body[-1]) == {statement.parts[0][1][0]} and not statement.parts[0][1][1]


def never(body):
    """Whether the statements end where the MIR's machine is stuck, so that none of them is ever come to."""
    return bool(body) and body[-1].kind == 'unreachable'


class Control:
    """The statements that have others inside them, of a Body."""

    def tested(self, statement):
        """What an `if` or a switch tests; nothing waits behind it."""
        self.held.ready(statement)
        test = self.operands.operand(statement.parts[0], self.held.get)[0]
        self.held.take(statement)
        self.held.before(test.effect)
        self.held.settle(statement.wanted_after)
        return test

    def do_if(self, statement, last):
        if joins(statement) and self.join(statement):
            return
        test = self.tested(statement)
        first, second = statement.parts[1:]
        if never(first) or never(second):  # no call that meets the function's contract comes there
            self.held.nodes += [Line(test.text + ';')] * (test.effect == values.CALLS)
            self.held.nodes += self.inside(second if never(first) else first, last)
            return
        self.held.nodes += needed(Choice([(test, self.inside(first, last)), (None, self.inside(second, last))]))

    def join(self, statement):
        """Has `a`, and then `b` where `a` leaves it open, wait as `a && b` or `a || b`; False, and all as before, where that takes lines."""
        local, held = statement.parts[0][1][0], self.held
        for other in [other for other in held.waiting if other != local and other in statement.wanted_after]:
            if other in held.waiting:
                held.flush(other)
        before = dict(held.waiting), dict(held.aliases), held.nodes
        first, held.nodes = held.waiting.pop(local, None), []
        held.settle(())
        if first is not None and not held.nodes:
            self.statements(statement.parts[1] or statement.parts[2])
            second = held.waiting.pop(local, None)
            if second is not None and not held.nodes and not held.waiting:
                held.nodes = before[2]
                held.hold(local, values.lazily('and' if statement.parts[1] else 'or', first, second))
                return True
        held.waiting, held.aliases, held.nodes = before
        return False

    def do_switch(self, statement, last):
        """A switch: the last arm needs no test where one of them is always taken; an arm in which nothing is done, none at all."""
        test = self.tested(statement)
        arms = [(keys, self.inside(body, last)) for keys, body in statement.parts[1] if not never(body)]
        keys = [key for keys, _ in arms for key in keys or ()]
        if len(set(keys)) != len(keys) or len(statement.parts[1]) == 1 and statement.parts[1][0][0] is None:
            raise Unknown("'%s' has a switch with an arm that is never taken, or with one for all." % self.function.name)
        if not arms:
            return
        full = arms[-1][0] is None
        if not full:
            arms = [arm for arm in arms if arm[1]] + [arm for arm in arms if not arm[1]]
        branches = [(self.one_of(test, keys) if keys is not None else None, body) for keys, body in arms]
        if not full and (len(branches) == 2 or all(body for _, body in branches)):
            branches[-1] = None, branches[-1][1]
        self.held.nodes += needed(Choice(branches, full)) if len(branches) > 1 else branches[0][1]

    def one_of(self, test, keys):
        """Whether a number is one of these."""
        named = [values.Value(self.types.tag(test.tags, key), literal=key) if test.tags else values.number(key, 64) for key in keys]
        found = values.test('eq', test, named[0])
        for key in named[1:]:
            found = values.made('%s || %s' % (found.text, values.test('eq', test, key).text), values.OR, test)
        return found

    def do_block(self, statement, last):
        """A block: a loop's is what `break` leaves; the end of another one has a label for those exits that lead there."""
        inside = statement.parts[0]
        if len(inside) == 1 and inside[0].kind == 'loop':
            self.do_loop(inside[0], last, statement)
            return
        self.statements(inside)
        self.held.settle(statement.wanted_after)
        self.held.nodes.append(Label(statement))

    def do_loop(self, statement, _, around=None):
        """A loop. Where it begins with the test that ends it, that is C's `while`."""
        body = statement.parts[0]
        self.held.settle(statement.wanted_before)
        outer, self.held.nodes = self.held.nodes, []
        head = next((i for i, s in enumerate(body) if s.kind not in ('assign', 'call') and not joins(s)), None)
        ends = [self.ends(body[head], branch, around) for branch in (1, 2)] if head is not None else [False, False]
        if not any(ends):
            found = 'for (;;)', self.inside(body)
        else:
            self.statements(body[:head])
            test = self.tested(body[head])
            test = values.negation(test) if ends[0] else test
            before, self.held.nodes = self.held.nodes, []
            after = self.inside([*body[head].parts[2 if ends[0] else 1], *body[head + 1:]])
            if before:
                before.append(Group(('if (%s)' % values.negation(test).text, [Line('break;')])))
            found = 'while (%s)' % test.text if not before else 'for (;;)', before + after
        found[1].append(Label(statement))
        self.held.nodes = outer + [Group(found, loop=True, leads=(statement, around)), Label(around)]

    @staticmethod
    def ends(statement, branch, around):
        """Whether that branch of a test does nothing but leave the loop."""
        if statement.kind != 'if' or around is None:
            return False
        return [s.kind for s in statement.parts[branch]] == ['exit'] and statement.parts[branch][0].parts[0] is around

    def do_unreachable(self, statement, _):
        self.held.settle(statement.wanted_after)

    def do_exit(self, statement, _):
        self.held.settle(statement.wanted_after)
        self.held.nodes.append(Leave(statement.parts[0]))
