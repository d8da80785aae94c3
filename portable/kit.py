"""The few functions of the kit's library that the crates call. The kit prints no term of them, so each is known here by its name, and says in C what
the library promises of it; another one is refused. By `?` what is there goes on, and what was refused is given back; a number of two is the
larger or the smaller one, or their sum or difference, which stays at the number's end where it would go beyond.
"""
from .instances import read_callee
from .term import Statement, Unknown, listed, shaped

BRANCH, BACK = 'core::result::ResultTry::branch', 'core::result::ResultFromResidualErrResidual::from_residual'
RESULT, FLOW, REFUSED, SAME = 'core::result::Result', 'core::ops::ControlFlow', 'core::result::ErrResidual', ['core::convert::AnyFrom::from']
NUMBERS = {'core::int::u16::max': 'larger_16', 'core::int::u16::saturating_add': 'full_sum_16', 'core::int::u16::saturating_sub': 'difference_16',
           'core::int::usize::min': 'smaller_64', 'core::int::usize::saturating_sub': 'difference_64'}


def plain(kind):
    """A type where what was refused is told by no more than the refusal."""
    if isinstance(kind, tuple) and kind[:2] == ('named', REFUSED):
        return plain(kind[2][0])
    return tuple(plain(part) for part in kind) if isinstance(kind, tuple) else kind


class Questions:
    """Of a function each `?`: the MIR asks the library whether a Result goes on, and tests its answer; in C the Result's own tag is tested."""

    def __init__(self, function):
        self.function, self.asked = function, {}  # by the local that has the library's answer, the one that has the Result
        function.body = self.told(function.body)
        function.locals[:] = [('unit',) if local in self.asked else plain(kind) for local, kind in enumerate(function.locals)]

    def told(self, statements):
        return [self.statement(statement) for statement in statements]

    def statement(self, statement):
        if statement.kind == 'call':
            callee = read_callee(statement.parts[0])
            if callee.symbol in (BRANCH, BACK):
                return (self.branch if callee.symbol == BRANCH else self.back)(callee, *statement.parts[1:])
        for body in statement.inner():
            body[:] = self.told(body)
        statement.parts = tuple(self.moved(part) for part in statement.parts)
        return statement

    def branch(self, callee, operands, place):
        local, locals_ = place[0], self.function.locals
        if place[1] or local in self.asked or operands[0][0] != 'place' or locals_[local][:2] != ('named', FLOW):
            raise Unknown("'%s' asks whether a Result goes on in a way that the translator doesn't know." % self.function.name)
        self.asked[local] = len(locals_)
        locals_.append(('named', RESULT, tuple(callee.kinds)))
        return Statement('assign', (self.asked[local], ()), ('use', self.moved(operands[0])))

    def back(self, callee, operands, place):
        impls = [listed(shaped(impl, 'an impl', impl=3)[1][0]) for impl in callee.impls]
        if impls != [SAME] or callee.kinds[1] != callee.kinds[2]:
            raise Unknown("'%s' gives another refusal back than it was given." % self.function.name)
        return Statement('assign', self.moved(place), ('aggregate', [('int', 8, 1), self.moved(operands[0])]))

    def moved(self, part):
        """A part of a statement, with the Result in each place where the library's answer stood: its variants come in the same order."""
        if isinstance(part, tuple) and len(part) == 2 and part[0] in ('place', 'address') and part[1][0] in self.asked:
            local, steps = part[1]
            if not steps or steps[0][0] != 'variant':
                raise Unknown("'%s' hands on what the kit's library says of a Result." % self.function.name)
            return part[0], (self.asked[local], steps)
        if isinstance(part, tuple):
            return tuple(map(self.moved, part))
        return [self.moved(one) for one in part] if isinstance(part, list) and not any(isinstance(one, (str, Statement)) for one in part) else part
