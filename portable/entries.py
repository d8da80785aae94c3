"""The entries of a library: what a header declares, over the function that was translated.

A count comes as size_t and goes on as the library's index; a structure that the MIR sees as a run of words is copied there and back,
so that no structure is read as an array; a number that a header has signed is turned by hand.
"""
import re

from .layout import Line
from .term import Unknown


class Entry:
    """One entry: `before` are lines that make the arguments, `after` those that hand back what was changed."""

    def __init__(self, name, prototype, function, types, headers):
        self.name, self.function, self.types, self.headers = name.split('::')[-1], function, types, headers
        self.prototype = prototype
        self.before, self.after, self.arguments = [], [], []
        self.left = list(prototype.parameters)
        for kind in function.locals[1:function.parameters + 1]:
            self.argument(kind)
        if self.left:
            self.refuse()

    def refuse(self):
        raise Unknown("the header and the MIR differ about the entry '%s'." % self.name)

    def next(self):
        return self.left.pop(0) if self.left else self.refuse()

    def argument(self, kind):
        declared, name = self.next()
        if kind[0] == 'slice':
            pointer = self.types.c(('ref', kind[1], kind[2]))
            counted, count = self.next()
            if declared + ' ' != pointer.replace('*', '* ') or counted != 'size_t':
                self.refuse()
            self.arguments += [name, 'MONITOR_COUNT(%s)' % count if self.types.index == 'monitor_index' else count]
        elif kind[0] == 'ref' and kind[2][0] == 'array':
            self.words(declared, name, kind)
        elif kind[0] == 'ref' and kind[2] == ('int', 64) and declared == 'size_t *':
            self.before.append('%s %s_there = *%s;' % (self.types.index, name, name))
            self.after.append('*%s = (size_t)%s_there;' % (name, name))
            self.arguments.append('&%s_there' % name)
        elif kind == ('int', 32) and declared == 'int32_t':
            self.arguments.append('(uint32_t)%s' % name)
        elif kind == ('int', 64) and declared == 'size_t':
            self.arguments.append(name)
        elif declared + ' ' == self.types.c(kind).replace('*', '* ') + ('' if kind[0] == 'ref' else ' '):
            self.arguments.append(name)
        else:
            self.refuse()

    def words(self, declared, name, kind):
        """A structure of as many fields as the array has elements: lent as that array, and taken back."""
        element, amount = kind[2][1:]
        fields = self.headers.structures.get(declared.replace('struct ', '').replace(' *', ''))
        if not kind[1] or not fields or len(fields) != amount or {f for f, _ in fields} != {self.types.c(element)}:
            self.refuse()
        self.before.append('%s %s_words[%d] = {\n    %s,\n};' % (
            self.types.c(element), name, amount, ',\n    '.join('%s->%s' % (name, field) for _, field in fields)))
        self.after += ['%s->%s = %s_words[%d];' % (name, field, name, i) for i, (_, field) in enumerate(fields)]
        self.arguments.append(name + '_words')

    def given(self):
        """The lines that give back the result of the call."""
        kind, declared = self.function.locals[0], self.prototype.result
        if kind[0] == 'unit' and declared == 'void':
            return [], ''
        if kind[0] == 'named' and kind[1] not in self.types.structures:
            return self.structure(kind, declared)
        if declared not in (self.types.c(kind), 'size_t' if kind == ('int', 64) else ''):
            self.refuse()
        if declared == 'size_t':
            return ['%s given = ' % self.types.c(kind)], 'return (size_t)given;'
        return ['%s given = ' % declared], 'return given;'

    def structure(self, kind, declared):
        """A structure whose numbers the header has in other types."""
        fields = self.headers.structures.get(declared.replace('struct ', ''))
        if not fields or len(fields) != len(self.types.fields(kind) or ()):
            self.refuse()
        rows = []
        for i, (wanted, text) in enumerate(fields):
            inner, of = self.types.field(kind, i)
            if wanted == 'int32_t' and of == ('int', 32):
                rows.append('.%s = signed_number(given.%s)' % (text, inner))
            elif wanted == 'size_t' and of == ('int', 64):
                rows.append('.%s = (size_t)given.%s' % (text, inner))
            elif wanted == self.types.c(of):
                rows.append('.%s = given.%s' % (text, inner))
            else:
                self.refuse()
        return ['%s given = ' % self.types.c(kind)], 'return (%s){ %s };' % (declared, ', '.join(rows))

    def text(self, signature, comment):
        """The entry's text, by the function that it calls."""
        start, end = self.given()
        call = '%s(%s);' % (signature.name, ', '.join(signature.wanted(self.arguments)))
        unused = ['(void)%s;' % name for name in self.unused(signature)]
        lines = unused + self.before + [(start[0] if start else '') + call] + self.after + ([end] if end else [])
        if start and not self.after and end == 'return given;':
            lines = unused + self.before + ['return ' + call]
        head = '%s %s(%s)' % (self.prototype.result, self.name, ', '.join(
            kind + ('' if kind.endswith('*') else ' ') + name for kind, name in self.prototype.parameters))
        return comment, head, [row for line in lines for row in Line(line).written(1)]

    def unused(self, signature):
        """The header's parameters that the function has no use for."""
        words = set(re.findall(r'\w+', ' '.join(signature.wanted(self.arguments) + self.before + self.after)))
        return [name for _, name in self.prototype.parameters if name not in words]
