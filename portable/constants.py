"""Constants that a function lends: what the MIR has in memory of its own, and what C has there, once for each library."""
from . import values
from .term import Unknown, listed, read_width, refuse, shaped

ROW, MOST = 16, 1 << 16  # numbers in a row, and elements of a constant that C is given one by one


def read_constant(node):
    head, parts = shaped(node, 'a constant', c_int=2, c_bool=1, c_unit=0, c_ints=2, c_repeat=2, c_parts=1)
    if head == 'c_int':
        return 'int', read_width(parts[0]), int(parts[1])
    if head == 'c_ints':
        return 'parts', [('int', read_width(parts[0]), int(amount)) for amount in listed(parts[1])]
    if head == 'c_repeat':
        if int(parts[1]) > MOST:
            refuse('so long', 'a constant')
        return 'parts', [read_constant(parts[0])] * int(parts[1])
    if head == 'c_parts':
        return 'parts', [read_constant(part) for part in listed(parts[0], 'ccons', 'cnil')]
    return ('bool', parts[0]) if head == 'c_bool' else ('unit',)


class Constants:
    """The constants of a library, by their type and their text."""

    def __init__(self, types):
        self.types, self.names = types, {}

    def pointer(self, kind, constant):
        """A pointer to the constant; to its first element, of an array."""
        text = self.text(kind, constant)
        name = self.names.setdefault((kind, text), 'constant%d' % (len(self.names) + 1))
        return values.Pointer(name if kind[0] == 'array' else '&' + name, self.types.element(kind), changes=False)

    def text(self, kind, constant):
        """The constant as C writes one of that type."""
        if kind[0] == 'int' and constant[:2] == kind:
            return values.number(constant[2], kind[1]).text
        if kind[0] == 'bool' and constant[0] == 'bool':
            return constant[1]
        if kind[0] == 'array' and constant[0] == 'parts' and len(constant[1]) == kind[2]:
            texts = [self.text(kind[1], part) for part in constant[1]]
            rows = [', '.join(texts[i:i + ROW]) for i in range(0, len(texts), ROW)]
            return '{ %s }' % rows[0] if len(rows) == 1 else '{\n    %s,\n}' % ',\n    '.join(rows)
        if kind[0] == 'named' and constant[0] == 'parts' and not self.types.nothing(kind):
            return '{ %s }' % ', '.join(self.members(kind, constant[1]))
        raise Unknown("the MIR lends a constant of the type '%s' that C can't have." % kind[0])

    def members(self, kind, parts):
        found, fields = [], None
        if self.types.variants(kind) is not None:
            k, parts = parts[0][2], parts[1:]
            found, fields = ['.tag = %s' % self.types.tag(kind, k)], self.types.variant(kind, k)[1]
        else:
            fields = [self.types.field(kind, i) for i in range(len(self.types.fields(kind)))]
        if len(fields) != len(parts):
            raise Unknown("the MIR lends a constant '%s' of another number of parts than it has." % kind[1])
        return found + ['.%s = %s' % (name, self.text(of, part)) for (name, of), part in zip(fields, parts) if not self.types.nothing(of)]

    def declarations(self):
        for (kind, text), name in self.names.items():
            yield 'static const %s %s%s = %s;' % (self.types.c(self.types.element(kind)), name, '[%d]' % kind[2] if kind[0] == 'array' else '', text)
