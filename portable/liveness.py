"""Which locals are still wanted after each statement: going backwards, until nothing changes. By it the translator knows that a value
is read once and may stand where it is read.
"""


def in_place(place):
    return {place[0]}


def in_operand(operand):
    return in_place(operand[1]) if operand[0] == 'place' else set()


def operands_of(value):
    """The operands of a value, in the order in which they stand."""
    kind = value[0]
    if kind in ('use', 'not', 'repeat'):
        return [value[1]]
    if kind == 'aggregate':
        return list(value[1])
    if kind == 'cast':
        return [value[3]]
    if kind == 'address':
        return [('place', value[1])]
    return [value[3], value[4]]


def places(statement):
    """The places that a statement reads or sets itself."""
    kind, parts = statement.kind, statement.parts
    found = {'assign': lambda: operands_of(parts[1]), 'call': lambda: parts[1], 'if': lambda: parts[:1], 'switch': lambda: parts[:1]}.get(kind, list)()
    return [o[1] for o in found if o[0] == 'place'] + [parts[i] for i in {'assign': [0], 'call': [2], 'lend': [0]}.get(kind, [])]


def reads(statement):
    """The locals that a statement reads itself, one for each time; those of statements inside it are not among them."""
    kind, parts = statement.kind, statement.parts
    if kind == 'assign':
        found = [o for o in operands_of(parts[1])]
        through = [parts[0][0]] if parts[0][1] else []
    elif kind == 'call':
        found, through = parts[1], [parts[2][0]] if parts[2][1] else []
    elif kind in ('if', 'switch'):
        found, through = [parts[0]], []
    elif kind == 'return':
        return [0]
    else:
        return []
    return through + [local for operand in found for local in in_operand(operand)]


def sets(statement):
    """The local that a statement sets whole, or nothing."""
    if statement.kind not in ('assign', 'call', 'lend'):
        return set()
    place = statement.parts[2 if statement.kind == 'call' else 0]
    return set() if place[1] else {place[0]}


def changed(function):
    """The locals of which a part is set."""
    places = [s.parts[0 if s.kind == 'assign' else 2] for s in every(function.body) if s.kind in ('assign', 'call')]
    return {local for local, steps in places if steps and 'deref' not in dict(steps)}


def before(statement, after, exits):
    """The locals wanted before a statement, given those wanted after it, and those where an exit leads, by block or loop."""
    kind, parts = statement.kind, statement.parts
    if kind in ('if', 'switch'):  # what is wanted after its test is read is what its branches want
        inside = set().union(*[before_all(body, after, exits) for body in statement.inner()])
        statement.wanted_after = frozenset(inside)
        return inside | set(reads(statement))
    if kind == 'block':
        return before_all(parts[0], after, {**exits, statement: after})
    if kind == 'loop':
        wanted = set()
        while True:
            found = before_all(parts[0], wanted, {**exits, statement: wanted})
            if found <= wanted:
                statement.wanted_before = frozenset(wanted)
                return wanted
            wanted |= found
    if kind == 'exit':
        statement.wanted_after = frozenset(exits[parts[0]])
        return set(exits[parts[0]])
    if kind == 'return':
        return {0}
    if kind == 'unreachable':
        statement.wanted_after = frozenset()
        return set()
    return (after - sets(statement)) | set(reads(statement))


def before_all(statements, after, exits):
    for statement in reversed(statements):
        statement.wanted_after = frozenset(after)
        after = before(statement, set(after), exits)
    return set(after)


def mark(function):
    """Writes into each statement of a function which locals are wanted after it."""
    before_all(function.body, set(), {})


def every(statements):
    """All statements, those inside others too."""
    for statement in statements:
        yield statement
        for body in statement.inner():
            yield from every(body)
