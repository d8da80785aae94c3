"""What a function is called in C, its parameters and its locals: the source's names where it has them."""
from . import liveness
from .declared import HINTS, KEYWORDS, snake


def hint(kind):
    """A name by the type, for what the source has no name for."""
    if kind[0] == 'named':
        return snake(kind[1].split('::')[-1]) if kind[1] != '(,)' else 'pair'
    return HINTS[kind[1]] if kind[0] == 'int' else {'bool': 'flag', 'slice': 'lent', 'array': 'room'}.get(kind[0], 'at')


def named_locals(function, told):
    """The names of the locals: those of parameters and of what is bound come first in the MIR, in the source's order."""
    given = (told.parameters + told.bound) if told else []
    names, taken = {}, set(KEYWORDS)
    for local, kind in enumerate(function.locals):
        known = given[local - 1] if 0 < local <= len(given) else None
        name = 'result' if local == 0 else known and known.lstrip('_') or hint(kind) + str(local)
        while name in taken or name + '_count' in taken:
            name += '_value' if name in KEYWORDS else '_again'
        taken |= {name, name + '_count'} if kind[0] == 'slice' else {name}
        names[local] = name
    return names


class Signature:
    """A function's head. A part of a parameter that its lines don't use is left out, there and in every call. `pointed`: the parameters that
    are handed over by a pointer to what nobody changes meanwhile. `apart`: the function keeps a frame of its own."""

    def __init__(self, function, told, types, apart=False):
        self.name, self.names = types.function_name(function.name), named_locals(function, told)
        result, self.parts, self.owners, self.apart = function.locals[0], [], [], apart
        own = set().union(function.slots, liveness.changed(function), *map(liveness.sets, liveness.every(function.body)))
        self.pointed = {i for i in range(1, function.parameters + 1) if i not in own and types.large(function.locals[i])}
        for local in range(1, function.parameters + 1):
            kind, name = function.locals[local], self.names[local]
            if kind[0] == 'slice':
                self.parts += [(types.c(('ref', kind[1], kind[2])), name), (types.index, name + '_count')]
            elif local in self.pointed:
                self.parts.append(('const %s *' % types.c(kind), name))
            elif not types.nothing(kind):
                self.parts.append((types.c(kind), name))
            self.owners += [local] * (len(self.parts) - len(self.owners))
        self.uses = [True] * len(self.parts)
        self.result = 'void' if result[0] == 'array' else types.lent(result) if result[0] == 'slice' else types.c(result)
        self.given = ['%s *%s' % (types.c(result[1]), self.names[0])] if result[0] == 'array' else []

    def head(self):
        kept = [kind + ('' if kind.endswith('*') else ' ') + name for (kind, name), use in zip(self.parts, self.uses) if use]
        return 'static %s%s %s(%s)' % ('MONITOR_APART ' * self.apart, self.result, self.name, ', '.join(kept + self.given) or 'void')

    def wanted(self, texts):
        """Of the texts of all arguments' parts, those that the function uses."""
        return [text for text, use in zip(texts, self.uses) if use]

    def leave_out(self, mentioned):
        """Leaves out what isn't mentioned."""
        self.uses = [name in mentioned for _, name in self.parts]

    def left_out(self):
        """The parameters of which no part is used."""
        return set(self.owners) - {local for local, use in zip(self.owners, self.uses) if use}

    def unused(self, mentioned):
        return [name for _, name in self.parts if name not in mentioned]
