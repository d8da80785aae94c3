"""Generic functions. The term of one is for all types; a call says which types, numbers and impls it gives. Where the C has a value of such
a type, or calls what an impl has, there is a function for each such list, made of the term with what is given put in.
"""
from . import liveness
from .term import Unknown, listed, read_type, shaped


class Callee(str):
    """What a call names: a function's symbol, and what is given to it, so that two lists are two names."""

    def __new__(cls, symbol, types=(), impls=()):
        made = super().__new__(cls, symbol + (repr((types, impls)) if types or impls else ''))
        made.symbol, made.types, made.impls = symbol, list(types), list(impls)
        made.kinds = [read_given(node) for node in types]
        return made

    def __str__(self):
        return self.symbol + ('<%s>' % ', '.join(map(spelled, self.kinds)) if self.kinds else '')


def read_given(node):
    """A type that is given, or a number; None where C has no such value."""
    try:
        if isinstance(node, list) and node[0] == 'ty_const':
            return 'number', int(node[1])
        return read_type(node)
    except Unknown:
        return None


def spelled(kind):
    """A type as the crates write it."""
    if kind is None:
        return '_'
    if kind[0] in ('int', 'number'):
        return ('u%d' if kind[0] == 'int' else '%d') % kind[1]
    if kind[0] in ('named', 'opaque'):
        return kind[1] + ('<%s>' % ', '.join(map(spelled, kind[2])) if len(kind) > 2 else '')
    if kind[0] in ('ref', 'slice'):
        return ('&mut ' if kind[1] else '&') + ('[%s]' if kind[0] == 'slice' else '%s') % spelled(kind[2])
    return '[%s; %d]' % (spelled(kind[1]), kind[2]) if kind[0] == 'array' else {'unit': '()'}.get(kind[0], kind[0])


def read_callee(node):
    """What a call names; of a function of the kit's libraries, the module of its symbol."""
    if isinstance(node, list) and node and node[0] == 'method':
        node = method(*shaped(node, 'a call', method=3)[1])
    if isinstance(node, list) and len(node) == 2 and isinstance(node[0], list) and node[0][0] == 'fn':
        types, impls = shaped(node[1], 'what a call gives', pair=2)[1]
        return Callee(shaped(node[0], 'a call', fn=1)[1][0], listed(types, 'tcons', 'tnil'), listed(impls, 'dcons', 'dnil'))
    while isinstance(node, list) and node and isinstance(node[0], list):
        node = node[0]
    return Callee(shaped(node, 'a call', unprinted=1, fn=1, **{'fn₀': 1})[1][0])


def method(impl, number, given):
    """The function that a method of an impl is: it takes what the impl is given, and then what the call gives."""
    methods, types, impls = shaped(impl, 'a method of', impl=3)[1]
    more_types, more_impls = shaped(given, 'what a call gives', pair=2)[1]
    return [['fn', listed(methods)[int(number)]], ['pair', behind(types, more_types, 'tnil'), behind(impls, more_impls, 'dnil')]]


def behind(first, second, end):
    return second if first == end else [first[0], first[1], behind(first[2], second, end)]


def number(node):
    return shaped(node, 'a number of a type', ty_const=1)[1][0]


def put_in(node, types, impls):
    """A generic function's term with these types and impls for its own."""
    if not isinstance(node, list):
        return node
    if node[0] == 'ty_param':
        return types[int(node[1])]
    if node[0] == 'given':
        return impls[int(node[1])]
    if node[0] in ('ty_array_p', 'repeat_p'):
        return [node[0].removesuffix('_p'), put_in(node[1], types, impls), number(types[int(node[2])])]
    return [put_in(part, types, impls) for part in node]


def mentions(node):
    """Whether something that a generic function takes stands in a node."""
    return isinstance(node, list) and (node[:1] in (['ty_param'], ['given']) or any(map(mentions, node)))


def looks_inside(function):
    """Whether a function has a value whose type isn't known without what it is given, or one behind a pointer."""
    if any(kind[0] == 'opaque' for kind in function.locals):
        return True
    for statement in liveness.every(function.body):
        for _, steps in liveness.places(statement):
            behind = [i for i, (step, what) in enumerate(steps) if step == 'deref' and what[0] == 'opaque']
            if behind and behind[0] < len(steps) - 1:
                return True
    return False
