"""Reads the terms of a crate's functions, those that the proofs are about, into functions and their statements.

Whatever has another shape than those named here is refused with Unknown: nothing is guessed.
"""


class Unknown(Exception):
    """Something that the translator doesn't know; the text is one sentence that names it."""


class Statement:
    """One statement: its kind, its parts, and which locals are still wanted after it (set by liveness)."""

    def __init__(self, kind, *parts):
        self.kind, self.parts, self.wanted_after = kind, parts, frozenset()

    def inner(self):
        """The lists of statements that stand inside this one."""
        if self.kind == 'switch':
            return [body for _, body in self.parts[1]]
        return list(self.parts) if self.kind in ('block', 'loop') else list(self.parts[1:]) if self.kind == 'if' else []


class Function:
    """A function of the MIR: how many parameters, the types of its locals (0 is the result), and its statements."""

    def __init__(self, name, parameters, locals_, slots, body, node):
        self.name, self.parameters, self.locals, self.slots, self.body, self.node = name, parameters, locals_, slots, body, node


def refuse(what, node):
    head = node[0] if isinstance(node, list) and node else node
    raise Unknown("the MIR has %s '%s' that the translator doesn't know." % (what, head))


def listed(node, cons='◌∷◌', nil='[]'):
    found = []
    while node != nil:
        if not (isinstance(node, list) and len(node) == 3 and node[0] == cons):
            refuse('a list', node)
        found.append(node[1])
        node = node[2]
    return found


def shaped(node, what, **shapes):
    """The head of a node that must be one of these shapes, each with its number of parts, and the parts."""
    head, parts = (node[0], node[1:]) if isinstance(node, list) else (node, [])
    if not isinstance(head, str) or shapes.get(head) != len(parts):
        refuse(what, node)
    return head, parts


def read_width(node):
    """A width in bits."""
    if node not in ('w8', 'w16', 'w32', 'w64'):
        refuse('a number of so many bits', node)
    return int(node[1:])


def read_words(node):
    """A name that is written by its bytes."""
    return bytes(int(byte) for byte in listed(node)).decode()


def read_type(node, declared=False):
    """A type; `declared`: of a field in a table, where a type parameter stands for what a use of the declared type puts there."""
    head, parts = shaped(node, 'a type', ty_int=1, ty_bool=0, ty_unit=0, ty_ptr=0, ty_ref=3, ty_struct=2, ty_array=2, ty_named=2,
                         **{'ty_param': 1} if declared else {})
    if head == 'ty_int':
        return 'int', read_width(parts[0])
    if head == 'ty_param':
        return 'param', int(parts[0])
    if head == 'ty_ref':
        return 'ref', shaped(parts[1], 'a reference', imm=0, mut=0)[0] == 'mut', read_type(parts[2], declared)
    if head == 'ty_array':
        return 'array', read_type(parts[0], declared), int(parts[1])
    if head == 'ty_named':
        return read_named(*parts, declared)
    if head == 'ty_struct':
        name, fields = read_words(parts[0]), read_types(parts[1], declared)
        if name != '&[]' or len(fields) != 2 or fields[0][0] != 'ref' or fields[1] != ('int', 64):
            refuse('a type', name)
        return 'slice', fields[0][1], fields[0][2]
    return (head[3:],)


def read_types(node, declared=False):
    return tuple(read_type(part, declared) for part in listed(node, 'tcons', 'tnil'))


def read_named(node, arguments, declared):
    """A declared type by its name, and behind that the types that it is given, if any. Lifetimes say nothing to C."""
    name = read_words(shaped(node, 'a named type', pair=2)[1][0])
    try:
        given = read_types(arguments, declared)
    except Unknown:  # no value of such a type can be had, but one may be pointed at
        return 'opaque', name
    return ('named', name, given) if given else ('named', name)


def read_place(node):
    """A local, and the steps from there. A variant and the field behind it are one step: the tag is the field 0 of each variant."""
    local, steps = shaped(node, 'a place', place=2)[1]
    found = []
    for step in listed(steps):
        head, parts = shaped(step, 'a step', deref=1, field=1, variant=1)
        what = read_type(parts[0]) if head == 'deref' else int(parts[0])
        if found and found[-1][0] == 'variant' and not isinstance(found[-1][1], tuple):
            found[-1] = 'variant', (found[-1][1], what) if head == 'field' else refuse('a step', 'variant')
        else:
            found.append((head, what))
    if found and found[-1][0] == 'variant' and not isinstance(found[-1][1], tuple):
        refuse('a step', 'variant')
    return int(local), tuple(found)


def read_operand(node):
    head, parts = shaped(node, 'an operand', copy=1, int=2, int_big=2, int_neg=2, num_of=2, size_of=1,
                         opd_true=0, opd_false=0, opd_unit=0)
    if head in ('int', 'int_big', 'int_neg'):
        width, amount = read_width(parts[0]), int(parts[1])
        return 'int', width, (1 << width) - amount if head == 'int_neg' else amount
    if head == 'copy':
        return 'place', read_place(parts[0])
    if head == 'num_of':
        return 'int', read_width(parts[0]), int(shaped(parts[1], 'a number of a type', ty_const=1)[1][0])
    if head == 'size_of':
        return 'size', read_type(parts[0])
    return ('unit',) if head == 'opd_unit' else ('bool', head[4:])


BINARY = {'eq': 1, 'ne': 1, 'bit_and': 1, 'bit_or': 1, 'offset': 1, 'wrap_add': 1, 'wrap_sub': 1, 'wrap_mul': 1,
          'add': 2, 'sub': 2, 'mul': 2, 'div': 2, 'rem': 2, 'lt': 2, 'le': 2}


def read_binary(operation, left, right):
    name, sign = (operation[0], operation[1]) if isinstance(operation, list) and len(operation) == 2 else (operation, None)
    if not isinstance(name, str) or BINARY.get(name) != (1 if sign is None else 2) or sign not in (None, 'signed', 'unsigned'):
        refuse('an operation', operation)
    if sign == 'signed' and name not in ('add', 'sub', 'lt'):
        refuse('a signed operation', operation)
    return 'binary', name.removeprefix('bit_'), sign == 'signed', read_operand(left), read_operand(right)


def read_value(node):
    head, parts = shaped(node, 'a value', rv_opd=1, addr_of=1, aggregate=1, repeat=2, op1=2, op2=3)
    if head == 'rv_opd':
        return 'use', read_operand(parts[0])
    if head == 'addr_of':
        return 'address', read_place(parts[0])
    if head == 'aggregate':
        return 'aggregate', [read_operand(o) for o in listed(parts[0])]
    if head == 'repeat':
        return 'repeat', read_operand(parts[0]), int(parts[1])
    if head == 'op2':
        return read_binary(*parts)
    if parts[0] == 'bit_not':
        return 'not', read_operand(parts[1])
    source, target, width = shaped(parts[0], 'an operation', cast=3)[1]
    if {source, target} - {'signed', 'unsigned'}:
        refuse('a cast', parts[0])
    return 'cast', source == 'signed', read_width(width), read_operand(parts[1])


def read_arms(node):
    """The arms of a switch, each with its numbers and its statements; the numbers of a default are None."""
    found = []
    while True:
        head, parts = shaped(node, 'an arm', arm=3, default=1, no_default=0)
        if head != 'arm':
            return found + [(None, read_statements(body)) for body in parts]
        found.append(([int(key) for key in listed(parts[0])], read_statements(parts[1])))
        node = parts[2]


def read_statements(node):
    """The statements of a sequence, one behind the other."""
    found = []
    while isinstance(node, list) and node[0] == 'seq' and len(node) == 3:
        found += read_statements(node[1])
        node = node[2]
    head, parts = shaped(node, 'a statement', skip=0, block=1, loop=1, cond=3, switch=2, exit=1, call=3, assign=2, lend_static=3,
                         unreachable=0, **{'return': 0})
    if head == 'assign':
        found.append(Statement('assign', read_place(parts[0]), read_value(parts[1])))
    elif head == 'call':
        found.append(Statement('call', parts[0], [read_operand(o) for o in listed(parts[1])], read_place(parts[2])))
    elif head == 'cond':
        found.append(Statement('if', read_operand(parts[0]), read_statements(parts[1]), read_statements(parts[2])))
    elif head == 'lend_static':
        found.append(Statement('lend', read_place(parts[0]), read_type(parts[1]), parts[2]))
    elif head == 'switch':
        found.append(Statement('switch', read_operand(parts[0]), read_arms(parts[1])))
    elif head in ('block', 'loop'):
        found.append(Statement(head, read_statements(parts[0])))
    elif head == 'exit':
        found.append(Statement('exit', int(parts[0])))
    elif head in ('return', 'unreachable'):
        found.append(Statement(head))
    return found


def read_function(name, node):
    """A function. Its lifetimes say nothing to C, nor do types that it takes where it has no value of such a type."""
    if node[0] == 'unreadable':
        raise Unknown(node[1])
    parts = dict(shaped(node, 'a function', record=7)[1])
    pairs = [shaped(local, 'a local', local=2)[1] for local in listed(parts['locals'])]
    homes = [shaped(home, 'a home', value_local=0, memory_slot=0)[0] for _, home in pairs]
    slots = {i for i, home in enumerate(homes) if home == 'memory_slot'}
    return Function(name, int(parts['params']), [read_type(t) for t, _ in pairs], slots, read_statements(parts['body']), node)


def read_declared(node):
    """A declared type: its name, how many types it takes, and its fields' types or those of each variant; None where C has no such value."""
    symbol, (_, kinds, shape) = shaped(node, 'a structure', pair=2)[1]
    try:
        if set(listed(kinds)) - {'a_type'}:
            refuse('a type that takes', 'a_number')
        head, parts = shaped(shape, 'fields', fields=1, variants=1)
        lists = listed(parts[0], 'ttcons', 'ttnil') if head == 'variants' else parts
        return read_words(symbol), (head, len(listed(kinds)), [read_types(types, True) for types in lists])
    except Unknown:
        return read_words(symbol), None


def read_program(found):
    """The terms of a crate's functions by name, of their symbols and terms, and the declared types that they name, by name."""
    terms, declared = {}, {}
    for name, node in found:
        if node[0] == 'spell_fn':  # the types that the function names, and what they are made of
            _, table, node = node
            declared.update((kind, shape) for kind, shape in map(read_declared, listed(table)) if shape is not None)
        terms[name] = node
    return terms, declared
