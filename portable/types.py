"""The C types of a library: of its numbers, its pointers and its structures."""
from .constants import Constants
from .declared import HINTS, Declared, c_name
from .term import Unknown

class Types(Declared):
    """`index` is the C type of 64-bit numbers; `structures` maps names of the MIR to those of a header with its fields' texts."""

    def __init__(self, index, declared, sources, taken=()):
        super().__init__(declared, sources, taken)
        self.index, self.lent_kinds, self.constants = index, {}, Constants(self)

    def function_name(self, name):
        """The name in C of a function; one that a header has already means what it means there."""
        own, given = c_name(getattr(name, 'symbol', name)), [self.called(kind) for kind in getattr(name, 'kinds', ())]
        return own + ('_of_' + '_and_'.join(given) if given else '') + ('_within' if own in self.taken else '')

    def number(self, width):
        return self.index if width == 64 else 'uint%d_t' % width

    def c(self, kind):
        """The C type of a value that has one text."""
        if kind[0] == 'int':
            return self.number(kind[1])
        if kind[0] == 'bool':
            return 'bool'
        if self.nothing(kind):
            return 'void'
        if kind[0] == 'named':
            return 'struct ' + self.structure(kind)
        if kind[0] == 'ref' and kind[2][0] == 'opaque':
            return 'void *'
        if kind[0] == 'ref':
            of = self.c(self.element(kind[2]))
            if of.endswith('*'):
                return of + ('*' if kind[1] else 'const *')
            return ('' if kind[1] else 'const ') + of + ' *'
        raise Unknown("the MIR has a value of the type '%s' where C has none." % kind[0])

    def lent(self, kind):
        """The structure in which a function gives back a slice: a pointer and a count."""
        name = 'part_of_%s%ss' % ('' if kind[1] else 'const_', HINTS.get(kind[2][-1], 'structure'))
        self.lent_kinds[name] = self.c(('ref', kind[1], kind[2]))
        return 'struct ' + name

    @staticmethod
    def element(kind):
        """What a reference to that points at: of an array, its first element."""
        return kind[1] if kind[0] == 'array' else kind

    def size(self, kind):
        """How many bytes the MIR counts for an element."""
        return self.laid(kind)[0]

    def large(self, kind):
        """Whether a structure is handed over by a pointer: one of more than eight bytes, which no small processor has registers for."""
        return kind[0] == 'named' and not self.nothing(kind) and self.size(kind) > 8

    def rows(self, name, kind):
        """What a member of a structure is declared as; a slice is two."""
        if kind[0] == 'array':
            return ['%s %s[%d];' % (self.c(kind[1]), name, kind[2])]
        if kind[0] == 'slice':
            return ['%s%s;' % (self.c(('ref', kind[1], kind[2])), name), '%s %s_count;' % (self.index, name)]
        of = self.c(kind)
        return ['%s%s%s;' % (of, '' if of.endswith('*') else ' ', name)]

    def declarations(self):
        """The structures that were used and are no header's, those that others have as fields first."""
        for name, pointer in self.lent_kinds.items():
            yield '/* Part of what was lent. */\nstruct %s {\n    %sat;\n    %s count;\n};' % (name, pointer, self.index)
        yield from self.structures_used()
